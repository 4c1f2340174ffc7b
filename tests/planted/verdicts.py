"""Whether a check has refused an edit: at a goal of a function that it changes.

A function whose callee is refused reads `no proof` too, and so does one whose proof names what the edit took away.
Neither says that a contract would miss the bug, so neither counts. Where functions that no edit of a check changes have
open goals of their own, one edit reaches into the proof of another, and the check of several says nothing.
"""
import re

ERROR = re.compile(r"(?:\./)?(proofs/\S+?):\d+:\d+: error: (?:in )?`([^`]+)`: (.*)")
NOTE = re.compile(r"note: (?:\./)?(src/\S+?):(\d+):\d+: it is not proved .*?\((`[^)]*)\)")
ACCEPTED = re.compile(r"fn (\S+): (?:proved|no holes|depends on a hole)\b")
REFUSED = re.compile(r"fn (\S+): (?:not proved|no proof)\b(.*)")
SEARCHED = re.compile(r"`search` did not prove (`[^`]+`(?:, `[^`]+`)*)")
# errors about a name that the edit took away, or about a proof that rests on another one that was refused
LOST = re.compile(r"has no field|has no `|is not in scope|is not admitted|was not admitted|was refused")
# the text of the code, of a definition or of a proof was not read
UNREAD = re.compile(r"(\S+?:\d+:\d+: )?error\[|(\./)?(src|specs)/\S+?:\d+:\d+: error: ")


def is_judged(said):
    """Whether the check has read the edited crate and has come to a verdict on the functions that were asked for."""
    end = next((line for line in reversed(said.lines) if line), "")
    is_ended = re.match(r"only=\d+ (proved|holes)=\d+$", end) is not None
    return is_ended and said.status in (0, 1) and not any(UNREAD.match(line) for line in said.lines)


def goals_of(function, said):
    """The goals of a function that the check leaves open."""
    found = []
    for line in said.lines:
        error, note, refused = ERROR.match(line), NOTE.match(line), REFUSED.match(line)
        if error and function.is_answer(error[1]) and not LOST.search(error[3]):
            found.append(error[2])
        elif note and note[1] == function.path and function.lines[0] <= int(note[2]) <= function.lines[1]:
            found += re.findall(r"`([^`]+)`", note[3])
        elif refused and refused[1].partition("::")[2] == function.name:
            searched = SEARCHED.search(refused[2])
            found += re.findall(r"`([^`]+)`", searched[1]) if searched else []
    return [it for it in dict.fromkeys(found) if function.has_goal(it)]


def is_refused(function, said):
    return any(it and names(it[1].partition("::")[2], function) for it in map(REFUSED.match, said.lines))


def is_accepted(function, said):
    """Whether the check leaves no goal of a function open."""
    found = [it for it in map(ACCEPTED.match, said.lines) if it and names(it[1].partition("::")[2], function)]
    return bool(found) and not is_refused(function, said) and not goals_of(function, said)


def names(reported, function):
    """Whether the name that a check reports is that of the function, or of a closure in it."""
    plain = "::".join(it for it in reported.split("::") if it != "fn")
    return plain == function.name or plain.startswith(f"{function.name}::")


def reaches_out(edits, said):
    """Whether a goal is open of a function that none of the edits changes, nor one of its cycle."""
    changed = [it for edit in edits for function in edit.functions for it in (function, *function.beside)]
    for line in said.lines:
        error, refused = ERROR.match(line), REFUSED.match(line)
        if error and not LOST.search(error[3]) and not any(it.is_answer(error[1]) for it in changed):
            return True
        if refused and SEARCHED.search(refused[2]):
            if not any(names(refused[1].partition("::")[2], it) for it in changed):
                return True
    return False


def refusal(edit, said, edits=()):
    """The goals at which an edit is refused, none where it is not; `edits` are all that the check has judged."""
    if not is_judged(said) or len(edits) > 1 and reaches_out(edits, said):
        return []
    goals = [goal for it in edit.functions if is_refused(it, said) for goal in goals_of(it, said)]
    return list(dict.fromkeys(goals))
