"""The folder `NEW.part`, in which a copy is written until it is whole: this user's own, locked while a command has it, and begun
by a command with the same results. So nothing of it is a stranger's."""

import errno
import os
import re
import secrets
import shutil
from contextlib import suppress
from pathlib import Path
from typing import Optional, Union

from .results import ResultsError, at_work, locked

_FOLDER = os.O_RDONLY | os.O_DIRECTORY | os.O_NOFOLLOW | os.O_CLOEXEC
_NEW = os.O_WRONLY | os.O_CREAT | os.O_EXCL | os.O_NOFOLLOW | os.O_CLOEXEC
# What tells whose copy a folder has, and what a folder of results has to do so.
_MARK, _SECRET = "mark", ".mvt-audit"
# What is nothing isn't written, by so many bytes.
_PIECE = 1 << 16


def give(file: Union[int, str, Path], mode: int, folder: Optional[int] = None) -> None:
    """Gives an own file or folder these rights, where the file system has any."""
    with suppress(PermissionError):
        os.chmod(file, mode, dir_fd=folder)


def put(folder: int, name: str, content: bytes, mode: Optional[int] = None) -> None:
    """Writes a file of a folder, whole or not at all, with these rights. No link is followed, and a hole stays one. Raises
    OSError."""
    new = f"{name}.new"
    with suppress(FileNotFoundError):
        os.unlink(new, dir_fd=folder)
    with open(os.open(new, _NEW, 0o666 if mode is None else 0o600, dir_fd=folder), "wb") as file:
        for at in range(0, len(content), _PIECE):
            piece = content[at : at + _PIECE]
            if piece.count(0) < len(piece):
                file.seek(at)
                file.write(piece)
        file.truncate(len(content))
        if mode is not None:
            give(file.fileno(), mode)
    os.replace(new, name, src_dir_fd=folder, dst_dir_fd=folder)


def _front(folder: int, name: str) -> bytes:
    """The first bytes of a file of a folder; none where it can't be read, or is a link."""
    try:
        file = os.open(name, os.O_RDONLY | os.O_NOFOLLOW | os.O_NONBLOCK | os.O_CLOEXEC, dir_fd=folder)
    except OSError:
        return b""
    try:
        return os.read(file, 1000)
    except OSError:
        return b""
    finally:
        os.close(file)


def _secret(results: Path) -> bytes:
    """What a folder of results and the copies that were begun with it have in common."""
    folder = os.open(results, os.O_RDONLY | os.O_DIRECTORY | os.O_CLOEXEC)
    try:
        held = _front(folder, _SECRET)
        if not re.fullmatch(rb"[0-9a-f]{32}", held):
            held = secrets.token_hex(16).encode()
            put(folder, _SECRET, held, 0o600)
        return held
    finally:
        os.close(folder)


class Part:
    """The folder of a copy that shall stand at a path. `whole` is the place of the copy in it, and `is_begun` says whether
    something of a store in this state is there already."""

    def __init__(self, to: Path, results: Path, digest: str) -> None:
        """Raises ResultsError where another command has it, or none of this user began it with these results."""
        self._to, self._path = to, to.with_name(f"{to.name}.part")
        self.whole = self._path / "copy"
        to.parent.mkdir(parents=True, exist_ok=True)
        with suppress(FileExistsError):
            self._path.mkdir(0o700)
        self._folder = self._locked()
        try:
            self.is_begun = self._take(_secret(results), digest)
        except BaseException:
            self.close()
            raise

    def close(self) -> None:
        os.close(self._folder)

    def clear(self) -> None:
        """Has nothing be there of what was begun."""
        for name in set(os.listdir(self._folder)) - {_MARK}:
            path = self._path / name
            if path.is_dir() and not path.is_symlink():
                shutil.rmtree(path)
            else:
                path.unlink()

    def remove(self) -> None:
        """Removes the folder, for a copy that can never be whole."""
        self.clear()
        os.unlink(_MARK, dir_fd=self._folder)
        self._path.rmdir()

    def check_free(self) -> None:
        """Raises ResultsError where something is where the copy shall stand."""
        if os.path.lexists(self._to):
            raise taken(self._to)

    def end(self) -> None:
        """Has the copy, which is whole, stand where it is wanted. Raises ResultsError where something is there."""
        is_folder = self.whole.is_dir()
        try:
            self._to.mkdir(0o700) if is_folder else os.close(os.open(self._to, _NEW, 0o600))
        except FileExistsError as why:
            raise taken(self._to) from why
        try:
            os.replace(self.whole, self._to)
        except BaseException:
            if self.whole.exists():  # else it stands there
                with suppress(OSError):
                    self._to.rmdir() if is_folder else self._to.unlink()
            raise
        self.remove()

    def _locked(self) -> int:
        try:
            held = locked(self._path, _FOLDER)
        except OSError as why:
            if why.errno in (errno.ENOTDIR, errno.ELOOP, errno.EACCES):
                raise self._foreign() from why
            raise
        told = os.fstat(held)
        is_own = told.st_uid == os.geteuid()
        if is_own and self._path.exists() and os.path.samestat(told, self._path.lstat()):
            give(held, 0o700)
            return held
        os.close(held)
        raise at_work(self._path) if is_own else self._foreign()

    def _take(self, secret: bytes, digest: str) -> bool:
        """Whether a copy in this state was begun; one that wasn't is now."""
        found, mark = set(os.listdir(self._folder)), secret + b" " + digest.encode()
        held = _front(self._folder, _MARK)
        if found - {f"{_MARK}.new"} and not held.startswith(secret):
            raise self._foreign()
        if held == mark:
            return True
        self.clear()
        put(self._folder, _MARK, mark, 0o600)
        return False

    def _foreign(self) -> ResultsError:
        return ResultsError(f"{self._path}: isn't a copy that mvt-audit began with these results; move it away")


def taken(to: Path) -> ResultsError:
    """Of something that is where a copy shall stand."""
    return ResultsError(f"{to}: is there already; name another, or move it away")
