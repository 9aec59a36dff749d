"""What an answer was made from: the file's bytes, those of a card, the project's commit and the kit, so that it can be had again."""

import hashlib
import subprocess

from .building import ROOT


class Sources:
    def __init__(self, message, card=None):
        self.card = card
        self.size = len(message)
        self.sha256 = hashlib.sha256(message).hexdigest()
        self.commit = commit()
        self.kit = said(["rt", "version"]) or "unknown: no `rt` is found"

    def lines(self):
        card = [] if self.card is None else ["card: %d bytes were read%s" % (len(self.card), ", in hex " + self.card.hex() if self.card else "")]
        return ["message: %d bytes, SHA-256 %s" % (self.size, self.sha256), *card, "chaloenpik: commit %s" % self.commit, "kit: %s" % self.kit]

    def record(self):
        card = {} if self.card is None else {"card_bytes": self.card.hex()}
        return {"size": self.size, "sha256": self.sha256, **card, "commit": self.commit, "kit": self.kit}


def commit():
    """The commit that is checked out here, and whether files differ from it."""
    top = said(["git", "rev-parse", "--show-toplevel"])
    if top != str(ROOT):
        return "unknown: this folder is no checkout of git's"
    changed = said(["git", "status", "--porcelain"])
    return said(["git", "rev-parse", "HEAD"]) + (", with changes that aren't committed" if changed else "")


def said(command):
    """What a command prints; nothing if it can't be run."""
    try:
        return subprocess.run(command, cwd=ROOT, stdout=subprocess.PIPE, stderr=subprocess.DEVNULL, check=True, encoding="utf-8").stdout.strip()
    except (OSError, subprocess.CalledProcessError):
        return ""
