"""Copies of the crates, in which a script may change them."""
import pathlib
import shutil
import subprocess

TOP = pathlib.Path(__file__).resolve().parent.parent


def copy_crates(room):
    """Copies the crates into a folder, as the work tree has them."""
    words = ["git", "ls-files", "-zco", "--exclude-standard", "crates", "crates.txt", "HANDLES"]
    names = subprocess.run(words, cwd=TOP, capture_output=True, text=True, check=True).stdout
    for name in names.split("\0"):
        if name and (TOP / name).is_file():
            (room / name).parent.mkdir(parents=True, exist_ok=True)
            shutil.copyfile(TOP / name, room / name)
