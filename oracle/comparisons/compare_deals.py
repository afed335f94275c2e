"""Compares `referee judge` with the second judge on random games that were dealt for real, and on such games with one rack
spoiled: compare_deals PROGRAM CASES SEED"""
import random

from comparing import Comparison, compared
from dealing import Dealer, in_order, line, spoiled, words_in_reach
from deals import events_of
from rules import ENGLISH
from try_deals import ROWS

EXCHANGES = [(), ("known",), ("unknown",), ("known", "unknown")]


def with_words_in_reach(dealer, tries):
    """The listed words of a game, and words of plays that its racks allowed. What was taken back stays unlisted."""
    listed = set(dealer.listed)
    for event, board, (racks, _) in zip(dealer.events, dealer.boards, dealer.deal):
        if random.random() < 0.3:
            listed |= words_in_reach(board, racks[event.player].elements(), tries)
    return listed - dealer.phonies


def show_last_racks(dealer):
    """Lets passes after a player is out show the whole rack of the other one: they are no turns, and have no best play."""
    for event, (racks, _) in zip(dealer.events, dealer.deal):
        if event.kind == "pass" and not racks[1 - event.player] and random.random() < 0.5:
            event.rack = in_order(racks[event.player].elements())


def records(cases):
    """Events, the text of their record and the listed words: worked rows, real games and spoiled ones."""
    for text, _, rules, words in ROWS:
        if rules == ENGLISH:
            yield events_of(text), text, set(words.split()), False
    for _ in range(cases):
        turns, exchanges, stated = (random.choice(it) for it in ([4, 12, 40, 60], EXCHANGES, ["whole", "part", "mixed"]))
        dealer = Dealer(ENGLISH, turns, exchanges, stated)
        events, _, _ = dealer.game()
        listed = with_words_in_reach(dealer, random.choice([0, 1, 5, 20]))
        if not events:
            continue
        show_last_racks(dealer)
        for record, dealt in ((events, True), (spoiled(events), False)):
            if record:
                yield record, "".join(map(line, record)), listed, dealt


comparison, _ = compared(Comparison, lambda made, cases: [made.judge(*record) for record in records(cases)])
comparison.end()
