"""How far a search is: on a terminal a line in the place of the one before, at most four times a second, and gone at the end; elsewhere a line
every ten seconds."""
import sys
import time
from dataclasses import dataclass, field

SECONDS, SECONDS_SHOWN = 10, 0.25


@dataclass
class Progress:
    name: str               # of the script
    started: float = field(default_factory=time.monotonic)
    shown_at: float = 0.0

    def show(self, text: str):
        """Says how far it is, where it is time to."""
        is_terminal, now = sys.stderr.isatty(), time.monotonic()
        if now < (self.shown_at + SECONDS_SHOWN if is_terminal else max(self.shown_at, self.started) + SECONDS):
            return
        self.shown_at = now
        line = f"{self.name}: {text}"
        print(f"\r\x1b[K{line}" if is_terminal else line, end="" if is_terminal else "\n", file=sys.stderr, flush=True)

    def end(self):
        """Takes the line away."""
        if sys.stderr.isatty() and self.shown_at:
            print("\r\x1b[K", end="", file=sys.stderr, flush=True)
