"""The package against the headers of the library that it calls."""

import ctypes
import importlib.metadata
import os
import re
import subprocess
import unittest
from typing import Dict

import likes
from likes import Status, _library, _statuses

SIZES = {"void *": 8, "const uint64_t *": 8, "const uint32_t *": 8, "size_t ": 8, "uint64_t ": 8, "uint32_t ": 4}
STRUCTURES = {
    "likes_driver": _library.DriverHandle,
    "likes_seat": _library.Handle,
    "likes_phase": _library.Handle,
    "likes_options": _library.Options,
    "likes_request": _library.Request,
    "likes_answer": _library.Answer,
    "likes_found": _library.FoundLook,
    "likes_statistics": _library.Statistics,
}


def include() -> str:
    """The folder of the headers: beside the library that LIKES_LIBRARY names, or where pkg-config finds them."""
    library = os.environ.get("LIKES_LIBRARY")
    if library:
        return os.path.join(os.path.dirname(os.path.dirname(os.path.abspath(library))), "include")
    words = ["pkg-config", "--variable=includedir", "likes"]
    return subprocess.run(words, check=True, capture_output=True, text=True).stdout.strip()


def header(name: str) -> str:
    """A header without its comments."""
    with open(f"{include()}/{name}", encoding="ascii") as file:
        return re.sub(r"/\*.*?\*/", "", file.read(), flags=re.S)


class Header(unittest.TestCase):
    text: str

    @classmethod
    def setUpClass(cls) -> None:
        cls.text = header("likes.h") + header("likes_service.h")

    def found(self, pattern: str) -> str:
        """What a pattern finds in the headers."""
        found = re.search(pattern, self.text, re.S)
        assert found, pattern
        return found[1]

    def numbers(self, name: str) -> Dict[str, int]:
        """The numbers of an enum."""
        text = self.found(rf"enum {name} \{{(.*?)\}};")
        return {name: int(value) for name, value in re.findall(r"LIKES_(\w+) = (\d+)", text)}

    def test_names(self) -> None:
        self.assertIn(f"#define LIKES_VERSION {_library.VERSION}\n", self.text)
        abi, minor = divmod(_library.VERSION, 1000)
        self.assertEqual(_library.SHARED, f"liblikes.so.{abi or f'0.{minor}'}")
        self.assertTrue(likes.__version__.startswith(f"{abi}.{minor}."), likes.__version__)
        self.assertIn(f"#define LIKES_MAX_SPLIT {_statuses.MAX_SPLIT}u", self.text)
        self.assertIn(f"#define LIKES_MAX_PERIOD_US {_statuses.MAX_PERIOD_US}u", self.text)
        self.assertEqual(_statuses.NO_HOT, 2**32 - 1)
        self.assertIn("#define LIKES_NO_HOT UINT32_MAX", self.text)
        self.assertIn(f"#define LIKES_FIRST_ERROR {_statuses.FIRST_ERROR}u", self.text)

    def test_version(self) -> None:
        """Where the package was installed by pip."""
        abi, minor = divmod(_library.VERSION, 1000)
        try:
            version = importlib.metadata.version("likes")
        except importlib.metadata.PackageNotFoundError:
            self.skipTest("it isn't installed")
        self.assertTrue(version.startswith(f"{abi}.{minor}."), version)
        self.assertEqual(version, likes.__version__)

    def test_statuses(self) -> None:
        told = {**self.numbers("likes_status"), **self.numbers("likes_service_status")}
        self.assertEqual(told, {status.name: status.value for status in Status})
        for status in Status:
            self.assertNotEqual(status.text, "unknown status")
        self.assertEqual(Status.WRONG_ROOM.text, "room is 1 to 4096")

    def test_operations_and_ends(self) -> None:
        self.assertEqual(self.numbers("likes_op"), {op.name: op.value for op in _statuses.Op})
        self.assertEqual([*self.numbers("likes_end").values()], [*_statuses.End])

    def test_structures(self) -> None:
        for name, kind in STRUCTURES.items():
            text = self.found(rf"typedef struct {name} \{{((?:(?!typedef struct).)*?)\n\}} {name};")
            told = re.findall(r"^ *((?:const )?\w+ \*?)(\w+)(?:\[(\d+)\])?;", text, re.M)
            here = [(field[0], ctypes.sizeof(field[1])) for field in kind._fields_]
            self.assertEqual(here, [(of, int(times or 1) * SIZES[it]) for it, of, times in told])

    def test_calls(self) -> None:
        """Each call that the library exports, but those for which there is a service."""
        told = re.findall(r"^(?!static|typedef)[\w ]+?[ *]likes_(\w+)\(", self.text, re.M)
        others = {name for name in told if name.startswith(("shared_", "client_")) or name == "close"}
        self.assertEqual(set(_library.CALLS), set(told) - others)


if __name__ == "__main__":
    unittest.main()
