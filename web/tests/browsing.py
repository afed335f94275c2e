"""A browser without a window, and what a person does in it."""
from __future__ import annotations

import shutil
import tempfile
import time
from pathlib import Path
from typing import Any, Optional

from selenium import webdriver
from selenium.webdriver.chrome.service import Service
from selenium.webdriver.common.by import By
from selenium.webdriver.remote.webelement import WebElement
from selenium.webdriver.support.ui import WebDriverWait

SIZES = ((1200, 900), (360, 740), (320, 640))


class Browser:
    """Headless Chromium."""

    def __init__(self, url: str, scripts: bool = True, profile: Optional[Path] = None) -> None:
        self.url, self.folder = url, Path(tempfile.mkdtemp(prefix="table-kept-"))
        options = webdriver.ChromeOptions()
        for word in (
            "--headless=new",
            "--no-sandbox",
            "--hide-scrollbars",
            "--disable-gpu",
            "--disable-dev-shm-usage",
            "--disable-renderer-backgrounding",
            "--disable-extensions",
            "--window-size=1200,900",
            "--lang=en",
        ):
            options.add_argument(word)
        if profile:
            options.add_argument(f"--user-data-dir={profile}")
        preferences: dict[str, Any] = {"download.default_directory": str(self.folder)}
        if not scripts:
            preferences["profile.managed_default_content_settings.javascript"] = 2
        options.add_experimental_option("prefs", preferences)
        options.set_capability("goog:loggingPrefs", {"browser": "ALL"})
        self.driver = webdriver.Chrome(options=options, service=Service(shutil.which("chromedriver") or "chromedriver"))
        self.driver.set_page_load_timeout(180)

    def close(self) -> None:
        """Ends the browser."""
        self.driver.quit()
        shutil.rmtree(self.folder, ignore_errors=True)

    def open(self, path: str) -> None:
        """Opens a page."""
        self.driver.get(self.url + path)

    def find(self, selector: str) -> WebElement:
        """The first element that a selector finds."""
        return self.driver.find_element(By.CSS_SELECTOR, selector)

    def all(self, selector: str) -> list[WebElement]:
        """The elements that a selector finds."""
        found: list[WebElement] = self.driver.find_elements(By.CSS_SELECTOR, selector)
        return found

    def text(self, selector: str = "main") -> str:
        """What can be read there."""
        return " ".join(self.find(selector).text.split())

    def type(self, selector: str, text: str) -> None:
        """Types a text in place of what is in a field, or pastes it if it is long."""
        field = self.find(selector)
        if field.get_attribute("value"):
            field.clear()
        if len(text) < 100:
            field.send_keys(text)
        else:
            field.click()
            self.driver.execute_cdp_cmd("Input.insertText", {"text": text})

    def choose(self, selector: str) -> None:
        """Chooses a radio button, if it is not chosen."""
        button = self.find(selector)
        if not button.is_selected():
            button.click()

    def press(self, text: str) -> None:
        """Presses a button that leads to a new page, and waits for that."""
        self.leave(lambda: self.button(text).click())

    def button(self, text: str) -> WebElement:
        """The first button with a text."""
        return self.driver.find_element(By.XPATH, f"//button[normalize-space()={text!r}]")

    def leave(self, act: Any) -> None:
        """Does something that leads to a new page, and waits for that."""
        before = self.find("html")
        act()
        WebDriverWait(self.driver, 180, 0.02).until(lambda _: self._is_new(before))

    def _is_new(self, before: WebElement) -> bool:
        try:
            now = self.find("html")
            return bool(now.id != before.id and self.all("footer"))
        except Exception:  # the page is on its way
            return False

    def downloaded(self, name: str) -> str:
        """A text that the browser keeps."""
        return self.downloaded_bytes(name).decode()

    def downloaded_bytes(self, name: str) -> bytes:
        """A file that the browser keeps."""
        path = self.folder / name
        for _ in range(400):
            if path.exists() and not list(self.folder.glob("*.crdownload")):
                content = path.read_bytes()
                path.unlink()
                return content
            time.sleep(0.05)
        raise AssertionError(f"{name} was not kept, but {list(self.folder.iterdir())}")

    def size(self, width: int, height: int, is_dark: bool) -> None:
        """A window of a size, in light or in dark."""
        self.driver.execute_cdp_cmd("Emulation.setDeviceMetricsOverride", {"width": width, "height": height, "deviceScaleFactor": 1, "mobile": False})
        self.driver.execute_cdp_cmd(
            "Emulation.setEmulatedMedia", {"features": [{"name": "prefers-color-scheme", "value": "dark" if is_dark else "light"}]}
        )

    def picture(self, path: Path, most: int = 3200) -> None:
        """A picture of the whole page."""
        width, height = (self.driver.execute_script(f"return document.documentElement.{side}") for side in ("clientWidth", "scrollHeight"))
        self.driver.execute_cdp_cmd(
            "Emulation.setDeviceMetricsOverride", {"width": width, "height": min(height, most), "deviceScaleFactor": 1, "mobile": False}
        )
        self.driver.save_screenshot(str(path))

    def complaints(self) -> list[str]:
        """What the browser complains of."""
        return [str(it["message"]) for it in self.driver.get_log("browser") if it["level"] in ("SEVERE", "WARNING")]

    def focused(self) -> Optional[str]:
        """The name of the field that has the focus."""
        return self.driver.switch_to.active_element.get_attribute("name")
