"""Why there is no store."""

from __future__ import annotations

from pathlib import Path

import mtrecover
from tests.files import Folders, log, mark, put


class Faults(Folders):
    def fault(self, folder: Path) -> mtrecover.Fault:
        with self.assertRaises(mtrecover.Fault) as raised:
            mtrecover.open(folder)
        return raised.exception

    def test_no_logs(self) -> None:
        fault = self.fault(self.folder())
        self.assertEqual((str(fault), fault.kind, fault.log, fault.path), ("no logs", "no logs", None, None))

    def test_a_record(self) -> None:
        folder = self.folder(a=log(mark(1)), b=log(put(3, b"k", {0: b"x"}), mark(2)))
        fault = self.fault(folder)
        self.assertEqual(str(fault), "log 1: record 1: clock (b.mtl)")
        self.assertEqual((fault.kind, fault.log, fault.record, fault.what), ("record", 1, 1, "clock"))
        self.assertEqual(fault.path, folder / "b.mtl")

    def test_a_header(self) -> None:
        fault = self.fault(self.folder(a=b"MTL2"))
        self.assertEqual((str(fault), fault.kind, fault.log, fault.record), ("log 0: header (a.mtl)", "header", 0, None))

    def test_a_gap(self) -> None:
        fault = self.fault(self.folder(a=log(start=4)))
        self.assertEqual((str(fault), fault.kind, fault.what), ("log 0: gap (a.mtl)", "gap", None))

    def test_a_doubled_segment(self) -> None:
        segment = b"MTL3" + bytes(16)
        fault = self.fault(self.folder(a=segment, b=segment))
        self.assertEqual((fault.kind, fault.log), ("doubled", 1))

    def test_a_torn_segment_before_another(self) -> None:
        fault = self.fault(self.folder(a=b"MTL3" + bytes(16) + b"\0", b=b"MTL3" + bytes(15) + b"\1"))
        self.assertEqual((fault.kind, fault.log), ("torn", 0))

    def test_a_file_that_cannot_be_read(self) -> None:
        folder = self.folder(a=log())
        (folder / "b.mtl").mkdir()
        with self.assertRaises(IsADirectoryError):
            mtrecover.open(folder)
        with self.assertRaises(FileNotFoundError):
            mtrecover.open(folder / "none")

    def test_the_number_of_threads(self) -> None:
        for threads in 0, 65:
            with self.assertRaises(ValueError):
                mtrecover.open(self.folder(a=log()), threads=threads)
