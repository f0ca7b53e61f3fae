"""python -m lifecrib_command: starts the command lifecrib."""
import signal
import sys

if signal.getsignal(signal.SIGINT) != signal.SIG_IGN:
    signal.signal(signal.SIGINT, signal.SIG_DFL)  # until the command can say that it is stopped
from . import main as command


def main() -> None:
    sys.exit(command.main())


if __name__ == '__main__':
    main()
