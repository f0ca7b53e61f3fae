"""python -m lifecrib --version: says the version, and what runs scripts. In a package that has the command lifecrib,
everything else is passed on to that."""
import sys

from . import __version__
from ._library import LIBRARY, library

USAGE = 'usage: python -m lifecrib --version'


def main() -> int:
    if sys.argv[1:] in (['--version'], ['-V']):
        try:
            path = library().path
            by = 'the library of this package' if path == LIBRARY else path
        except (ImportError, OSError) as error:
            by = 'no library: %s' % error
        print('lifecrib %s (%s)' % (__version__, by))
        return 0
    try:
        from lifecrib_command import main as command
    except ImportError:
        print(USAGE, file=sys.stderr)
        return 2
    return command.main()


if __name__ == '__main__':
    sys.exit(main())
