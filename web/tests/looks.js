// What is wrong with how a page looks, as a list of texts: contrast, labels, headings, names that stand twice, and what is wider than the window.
"use strict";
const faults = [];

function channel(value) {
  const part = value / 255;
  return part <= 0.04045 ? part / 12.92 : ((part + 0.055) / 1.055) ** 2.4;
}

function luminance([red, green, blue]) {
  return 0.2126 * channel(red) + 0.7152 * channel(green) + 0.0722 * channel(blue);
}

function numbers(colour) {
  const found = colour.match(/[\d.]+/g).map(Number);
  return found.length < 4 ? [...found, 1] : found;
}

function over(above, below) {
  const part = above[3];
  return [0, 1, 2].map(at => above[at] * part + below[at] * (1 - part)).concat(1);
}

function background(element) {
  const layers = [];
  for (let at = element; at; at = at.parentElement) {
    const colour = numbers(getComputedStyle(at).backgroundColor);
    if (colour[3] > 0) {
      layers.push(colour);
    }
    if (colour[3] === 1) {
      break;
    }
  }
  return layers.reverse().reduce((below, above) => over(above, below), [255, 255, 255, 1]);
}

function ratio(one, other) {
  const [dark, light] = [luminance(one), luminance(other)].sort((a, b) => a - b);
  return (light + 0.05) / (dark + 0.05);
}

function isSeen(element) {
  return element.checkVisibility({ checkOpacity: true, checkVisibilityCSS: true }) && element.getClientRects().length > 0 && !element.closest(".hidden, .skip");
}

function isLarge(style) {
  const size = parseFloat(style.fontSize);
  return size >= 24 || size >= 18.66 && Number(style.fontWeight) >= 700;
}

function name(element) {
  return `${element.tagName.toLowerCase()}${element.id ? "#" + element.id : ""}${element.className ? "." + String(element.className).replaceAll(" ", ".") : ""}`;
}

const walker = document.createTreeWalker(document.body, NodeFilter.SHOW_TEXT);
for (let node = walker.nextNode(); node; node = walker.nextNode()) {
  const element = node.parentElement;
  if (!node.data.trim() || ["SCRIPT", "OPTION"].includes(element.tagName) || !isSeen(element)) {
    continue;
  }
  const style = getComputedStyle(element), below = background(element);
  const found = ratio(over(numbers(style.color), below), below);
  if (found < (isLarge(style) ? 3 : 4.5)) {
    faults.push(`contrast ${found.toFixed(2)} of "${node.data.trim().slice(0, 30)}" in ${name(element)}`);
  }
  if (parseFloat(style.fontSize) < 11 && !element.closest(".board")) {
    faults.push(`letters of ${style.fontSize} in ${name(element)}`);
  }
}

const fields = "input:not([type=hidden]), textarea, select";
for (const field of document.querySelectorAll(fields)) {
  if (!(field.labels && field.labels.length && field.labels[0].textContent.trim()) && !field.getAttribute("aria-label")) {
    faults.push(`no label for ${name(field)}`);
  }
  if (isSeen(field) && !["radio", "checkbox", "file"].includes(field.type)) {
    const style = getComputedStyle(field), below = background(field.parentElement);
    if (ratio(numbers(style.borderTopColor), below) < 3) {
      faults.push(`the edge of ${name(field)} is hard to see`);
    }
    const hint = getComputedStyle(field, "::placeholder");
    if (field.placeholder && ratio(numbers(hint.color), background(field)) < 4.5) {
      faults.push(`the hint in ${name(field)} is hard to see`);
    }
  }
}

for (const it of document.querySelectorAll("button, a[href], summary")) {
  if (!it.textContent.trim() && !it.getAttribute("aria-label")) {
    faults.push(`no name for ${name(it)}`);
  }
  const box = it.getBoundingClientRect();
  if (isSeen(it) && !it.closest(".board, p, footer") && (box.height < 24 || box.width < 24)) {
    faults.push(`${name(it)} is small: ${box.width} by ${box.height}`);
  }
}

const orders = [...document.querySelectorAll("h1, h2, h3, h4")].map(it => Number(it.tagName[1]));
if (orders[0] !== 1 || orders.filter(it => it === 1).length !== 1 || orders.some((it, at) => at && it > orders[at - 1] + 1)) {
  faults.push(`headings ${orders}`);
}
const ids = [...document.querySelectorAll("[id]")].map(it => it.id);
for (const id of new Set(ids.filter((it, at) => ids.indexOf(it) !== at))) {
  faults.push(`the name ${id} stands twice`);
}
for (const it of document.querySelectorAll("[aria-describedby]")) {
  if (!document.getElementById(it.getAttribute("aria-describedby"))) {
    faults.push(`${name(it)} is described by nothing`);
  }
}
if (!document.documentElement.lang || !document.title.trim() || document.querySelectorAll("main").length !== 1) {
  faults.push("language, title or main");
}
for (const it of document.querySelectorAll("table")) {
  if (!it.querySelector("th")) {
    faults.push(`a table without heads: ${name(it)}`);
  }
}
if (document.documentElement.scrollWidth > document.documentElement.clientWidth) {
  faults.push(`the page is ${document.documentElement.scrollWidth} wide, and the window ${document.documentElement.clientWidth}`);
}
return [...new Set(faults)];
