"""Where in a source an edit lies: the path by which `rattle check --only` names the function around it."""
import re
from typing import List, NamedTuple, Optional, Tuple

FUNCTION = re.compile(r"(?:pub(?:\([^)]*\))? )?(?:const )?fn (\w+)")
OWNER = re.compile(r"impl\b")


def module_of(file: str) -> List[str]:
    """Returns the names of the module that a file below src/ holds, none for the crate's root."""
    names = file[len("src/"):-len(".rt")].split("/")
    return names[:-1] if names[-1] in ("mod", "lib", "main") else names


class Found(NamedTuple):
    """A function: its name, and the line (from 0) and the depth at which its head stands."""

    name: str
    line: int
    depth: int


def function_at(text: str, line: int) -> Optional[Found]:
    """Returns the function around a line (from 0) of formatted code, or None where no function is around it.

    Formatted code closes what it opens at the same indentation, so going up the function is the first `fn` that stands no
    deeper than all below it and was not closed on the way.
    """
    lines = text.split("\n")
    if line >= len(lines):
        return None
    level, closed = len(lines[line]) - len(lines[line].lstrip()), set()
    for at in range(line, -1, -1):
        row = lines[at].lstrip()
        depth = len(lines[at]) - len(row)
        if not row or depth > level:
            continue
        level = depth
        if row == "}" and at != line:
            closed.add(depth)
        elif FUNCTION.match(row) and depth not in closed:
            return Found(FUNCTION.match(row)[1], at, depth)
        elif FUNCTION.match(row):
            closed.discard(depth)
    return None


def owner_of(text: str, found: Found) -> str:
    """Returns the name under which rattle lists the methods of the impl around a function, or no text.

    It is made of the type and its trait with what they are applied to, as MemoryFromAllocError, less the impl's own parameters.
    """
    lines = text.split("\n")[:found.line]
    heads = [at for at, row in enumerate(lines) if len(row) - len(row.lstrip()) < found.depth and OWNER.match(row.lstrip())]
    if not heads:
        return ""
    head = " ".join(lines[heads[-1]:]).partition("{")[0].strip()[len("impl"):]
    parameters, head = parameters_of(head)
    words = re.fullmatch(r"\s*(?:(.+?)\s+for\s+)?(.+?)(?:\s+where\b.*)?\s*", head)
    names = f"{words[2]} {words[1] or ''}" if words else ""
    plain = re.sub(r"'\w+|\w+::", " ", names)
    return "".join(it for it in re.findall(r"\w+", plain) if it not in parameters and it != "_")


def parameters_of(head: str) -> Tuple[List[str], str]:
    """Returns the names of the parameters that a head begins with in < and >, and the rest of the head."""
    if not head.startswith("<"):
        return [], head
    depth = 0
    for at, sign in enumerate(head):
        depth += (sign == "<") - (sign == ">")
        if not depth:
            return re.findall(r"(?:^|,)\s*(?:const )?(\w+)", re.sub(r"<[^<>]*>", "", head[1:at])), head[at + 1:]
    return [], head


def full_name(file: str, text: str, found: Found) -> str:
    """Returns the path below the crate under which rattle lists a function of a file below src/."""
    return "::".join([*module_of(file), *[it for it in (owner_of(text, found), found.name) if it]])


def cycle_of(text: str, found: Found) -> Optional[str]:
    """Returns the name of the cycle of calls that the attributes above a function name, or None."""
    lines = text.split("\n")
    at = found.line - 1
    while at >= 0 and lines[at].lstrip().startswith(("#[", "//")):
        named = re.match(r"\s*#\[cycle\((\w+)\)\]", lines[at])
        if named:
            return named[1]
        at -= 1
    return None


def paths_at(file: str, text: str, line: int) -> List[str]:
    """Returns the path of the function around a line of a file below src/, none where no function is around it.

    Functions in a cycle of calls have one proof, so it returns those of the file that are in the cycle with it.
    """
    found = function_at(text, line)
    cycle = cycle_of(text, found) if found else None
    if not found or not cycle:
        return [full_name(file, text, found)] if found else []
    heads = [function_at(text, at) for at, row in enumerate(text.split("\n")) if FUNCTION.match(row.lstrip())]
    return [full_name(file, text, it) for it in heads if it and cycle_of(text, it) == cycle]


def in_body(text: str, line: int) -> bool:
    """Returns whether a line lies in the body of a function, where no contract and no signature stands."""
    found = function_at(text, line)
    if not found:
        return False
    rows = text.split("\n")[found.line:line]
    return any(row.endswith("{") and len(row) - len(row.lstrip()) == found.depth for row in rows)
