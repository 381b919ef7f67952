"""A run of the command line within the tests."""
import contextlib
import io

from packing.command_line import main


def run_main(*words):
    """The status, standard output and standard error of a command."""
    out, err = io.StringIO(), io.StringIO()
    with contextlib.redirect_stdout(out), contextlib.redirect_stderr(err):
        try:
            status = main([str(it) for it in words])
        except SystemExit as left:
            status = left.code
    return status, out.getvalue(), err.getvalue()
