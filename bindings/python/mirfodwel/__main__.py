"""`python -m mirfodwel FUNCTION [FORM] < TEXT` writes what the function tells of the text, with the statuses of the programs."""

import sys

from . import answers, check, explain, goals, subtypes
from .errors import BadInput, OutOfMemory
from .library import BAD_INPUT, NO_MEMORY


def main(arguments: "list[str]") -> int:
    functions = {each.__name__: each for each in (goals, answers, explain, check, subtypes)}
    if not arguments or arguments[0] not in functions:
        sys.stderr.write(f"{__doc__}\nFUNCTION is one of {', '.join(functions)}; FORM, of explain, text, dot or json.\n")
        return BAD_INPUT
    try:
        came = functions[arguments[0]](sys.stdin.buffer.read(), *arguments[1:2])
    except BadInput as error:
        sys.stderr.write(f"{error}\n")
        return BAD_INPUT
    except OutOfMemory as error:
        sys.stderr.write(f"{error}\n")
        return NO_MEMORY
    sys.stdout.write(came.text)
    return came.status


if __name__ == "__main__":
    sys.exit(main(sys.argv[1:]))
