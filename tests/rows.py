"""the core and the program row by row: each line of rows/ is a call, and the plain source's answer must be the line's own"""

import os
from concurrent.futures import ThreadPoolExecutor
from pathlib import Path

from tests import tables
from tests.support import ROWS_PROGRAM, Checks, Ran, need_rows_program, run


def answered(table: Path) -> Ran:
    return run(ROWS_PROGRAM, stdin=table.read_bytes(), timeout=600)


class Rows(Checks):
    @classmethod
    def setUpClass(cls) -> None:
        super().setUpClass()
        need_rows_program()

    def test_rows(self) -> None:
        found = tables.all_tables()
        with ThreadPoolExecutor(os.cpu_count() or 1) as pool:
            for table, ran in zip(found, pool.map(answered, found)):
                self.compare(table, ran)

    def test_words(self) -> None:
        with self.check("the rows' program refuses words, and reads no row"):
            ran = run(ROWS_PROGRAM, "rows", stdin=b"| gdt64\n")
            self.assertEqual((ran.status, ran.out), (1, b""), "status and lines")

    def compare(self, table: Path, ran: Ran) -> None:
        name = tables.name_of(table)
        if ran.status != 0:
            with self.check(f"the rows' program answers each line of {name} and ends with status 0"):
                self.fail(self.how_it_ended(name, table.read_bytes(), ran))
            return
        it = tables.compared(name, table.read_bytes(), ran.out)
        self.tally(f"each row of {name} has the answer that the rules give", it.passed, it.failed, it.why)

    def how_it_ended(self, name: str, wanted: bytes, ran: Ran) -> str:
        """Of a run that ended badly. The program buffers what it writes: it may have been some rows further."""
        lines, count = tables.lines_of(wanted), ran.out.count(b"\n")
        told = [f"ran: {ran} <{name}", f"status {ran.status}, wanted 0"]
        told.append(f"{count} of {len(lines)} lines came; what ended it stands after {name}:{count}")
        return "\n".join(told + ran.err.decode(errors="backslashreplace").splitlines()[:5])
