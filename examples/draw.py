#!/usr/bin/env python3
"""Draws a framework as an SVG, with what its extensions hold marked.

    examples/draw.py examples/hearing.af SE-GR docs/pictures/hearing-GR.svg

The extensions are what `./argue -p TASK -f FILE` prints, where `argue check` accepts it. Dark: each of them holds it;
light: some do; grey: each attacks it; white: neither. An arrow is an attack. Of assumptions and rules the assumptions
are round and the statements square; an arrow leads from what a rule needs to what follows, and a dashed one from a
statement to the assumption that it speaks against. Names are those of comments `# N NAME: TEXT`, and the text is the
tooltip."""
import sys
from pathlib import Path

sys.path.insert(0, str(Path(__file__).resolve().parent.parent / "client"))

from burgaouez import Accepted, ArgueError, Framework, Sets, check, solve  # noqa: E402
from page import picture_file  # noqa: E402


def drawn(path, task):
    """The text of the picture."""
    framework = Framework.from_file(path)
    answer = solve(framework, task)
    if check(framework, task, answer) != Accepted():
        raise ValueError("argue check rejects the answer")
    sets = answer.sets if isinstance(answer, Sets) else ()
    named = [", ".join(framework.names.get(n, str(n)) for n in one) for one in sets]
    title = "; ".join(f"{{{one}}}" for one in named) or "no extension"
    return picture_file(framework, sets, f"{task}: {title if len(title) < 90 else f'{len(sets)} extensions'}")


def main():
    if len(sys.argv) != 4:
        print(f"usage: {sys.argv[0]} FRAMEWORK TASK PICTURE.svg, with SE or EE of some semantics as the task", file=sys.stderr)
        return 2
    path, task, target = sys.argv[1:]
    try:
        Path(target).write_text(drawn(path, task), encoding="utf-8", errors="replace")
    except OSError as error:
        print(f"draw.py: {error.filename}: {error.strerror}", file=sys.stderr)
        return 1
    except (ArgueError, ValueError) as error:
        print(f"draw.py: {type(error).__name__}: {error}", file=sys.stderr)
        return 1
    return 0


if __name__ == "__main__":
    sys.exit(main())
