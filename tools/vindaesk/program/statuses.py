"""What the statuses of the program mean."""
from __future__ import annotations

# the longest script that the program reads
MAX_SCRIPT = 16777216
WRONG_ARGUMENTS = 2
# each status with what happened, and with what that means for the run
SENTENCES = {
    WRONG_ARGUMENTS: ("it does not know these arguments", ""),
    3: ("the script could not be read further", "; the lines before were carried out"),
    4: ("the answer could not be written further", " (is the disk full, or has the reader ended?)"),
    5: ("out of memory", "; what was written before holds"),
    6: ("a file could not be read", " (is it a folder, or not yours?); what was written before holds"),
    7: ("the script has more than %d bytes" % MAX_SCRIPT, "; lines that end within them were carried out"),
}


def short(status: int) -> str:
    """What happened."""
    return SENTENCES.get(status, ("unknown", ""))[0]


def explained(status: int) -> str:
    """What there is to say of a run that ended before its end; nothing of any other, or of wrong arguments."""
    return "status %d: %s%s" % (status, *SENTENCES[status]) if status in SENTENCES and status != WRONG_ARGUMENTS else ""
