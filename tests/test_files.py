"""Files that are written: as a whole or not at all, by many at once, through no link, and to pipes."""

import os
import unittest
from concurrent.futures import ThreadPoolExecutor
from pathlib import Path
from unittest import mock

from running import Folder
from mutants import files


class Written(Folder):
    def test_a_file_is_there_as_a_whole_and_keeps_its_mode(self) -> None:
        path = self.folder / "a.json"
        files.written(path, b"one")
        mask = os.umask(0)
        os.umask(mask)
        self.assertEqual(path.stat().st_mode & 0o777, 0o666 & ~mask)
        path.chmod(0o640)
        files.written(path, b"two")
        with mock.patch.object(os, "replace", side_effect=KeyboardInterrupt), self.assertRaises(KeyboardInterrupt):
            files.written(path, b"three")
        self.assertEqual((path.read_bytes(), path.stat().st_mode & 0o777), (b"two", 0o640))
        self.assertEqual(self.names(), ["a.json"])

    def test_no_link_is_followed(self) -> None:
        mine, link = self.put("mine", "mine"), self.folder / "a.json"
        for name in ("a.json", "a.json.part"):
            (self.folder / name).symlink_to(mine)
        files.written(link, b"one")
        self.assertEqual((mine.read_text(), link.read_text(), link.is_symlink()), ("mine", "one", False))
        link.unlink()
        link.symlink_to("/dev/null")
        files.written(link, b"two")
        self.assertEqual(link.read_text(), "two")

    def test_many_writers_tear_no_file(self) -> None:
        path, texts = self.folder / "a.json", [bytes([65 + writer]) * 300_000 for writer in range(4)]
        torn: list[int] = []

        def write(text: bytes) -> None:
            for _ in range(25):
                files.written(path, text)
                torn.extend([1] if path.read_bytes() not in texts else [])

        with ThreadPoolExecutor(4) as pool:
            list(pool.map(write, texts))
        self.assertEqual((torn, self.names()), ([], ["a.json"]))

    def test_a_pipe_takes_the_bytes(self) -> None:
        source, target = os.pipe()
        files.written(Path(f"/dev/fd/{target}"), b"all of it")
        os.close(target)
        with open(source, "rb") as pipe:
            self.assertEqual(pipe.read(), b"all of it")
        files.written(Path(os.devnull), b"gone")
        self.assertFalse(Path(os.devnull).is_file())


if __name__ == "__main__":
    unittest.main()
