"""python -m sdtool.audit, and the command sdtool-audit of a wheel and of Debian's package."""
import contextlib
import sys


def _audit() -> int:
    try:
        from sdtool.audit import command
    except ImportError as error:
        # Python's own status, 1, would mean that something was found.
        with contextlib.suppress(OSError):
            print(f"sdtool-audit: {error}; pip install 'sdtool[audit]' has what it needs", file=sys.stderr)
        return 2
    return command.status()


def main() -> None:
    from sdtool.audit import stopping
    stopping.run(_audit)


if __name__ == "__main__":
    main()
