"""A kit that is played: an rt of the test's own."""

import os


def executable(path, script):
    path.parent.mkdir(parents=True, exist_ok=True)
    path.write_text(script)
    path.chmod(0o755)


def path_with(rt):
    """The environment with this rt found before any other."""
    return {**os.environ, "PATH": f"{rt.parent}:{os.environ['PATH']}"}


def for_real_programs(folder, script):
    """The environment of a kit in this folder whose rt is played by a script, and has a real program built where that does not end it."""
    rt = folder / "kit" / "bin" / "rt"
    executable(rt, f"#!/bin/sh\n{script}\necho 'rt: running the program'\n")
    return path_with(rt)


def for_played_programs(folder):
    """The environment of a kit in this folder under which a program may be a script."""
    rt = folder / "kit" / "bin" / "rt"
    executable(rt, "#!/bin/sh\nexit 1\n")
    return path_with(rt)
