"""``python3 -m rematch``, and the file that holds the package as a program: by its name it is one of the commands."""
import os
import sys


def run() -> int:
    """Runs the command that this is called by; under another name rematch-to."""
    name = os.path.basename(sys.argv[0])
    if name == 'rematch-cut':
        from rematch.to.piece import cut_main as main
    elif name == 'rematch-piece':
        from rematch.to.piece import piece_main as main
    elif name == 'rematch-play':
        from rematch.to.play import main
    elif name == 'rematch-serve':
        from rematch.to.relay import main
    else:
        from rematch.to.convert import main
    return main()


if __name__ == '__main__':
    sys.exit(run())
