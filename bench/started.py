"""How each script here is started: it answers --help, and a file that is missing with a line."""
import os
import sys


def start(main, *words):
    """Calls a script's `main`. With -h or --help among the words it prints what the script says of itself, unless `main` reads its words by argparse; where a file
    or a program can't be opened, what the system says of it; and where a word is needed and none is given, that. It ends with what `main` returns."""
    name = os.path.basename(sys.argv[0])
    if {"-h", "--help"} & {*sys.argv[1:]} and "argparse" not in main.__globals__:
        sys.exit(print(sys.modules["__main__"].__doc__.strip()))
    try:
        sys.exit(main(*words))
    except OSError as error:
        sys.exit(f"{name}: {error.filename or 'the system'}: {error.strerror}")
    except IndexError:
        if len(sys.argv) > 1:
            raise
        sys.exit(f"{name}: a word is missing: {name} --help tells which")
