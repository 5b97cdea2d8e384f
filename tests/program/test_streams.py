"""Random streams: the program's report, notes and status are those of a second model. tests/outside/streams.sh makes more."""

import tests_path  # noqa: F401
import os
import random
import subprocess
import unittest

from test_audit import PROGRAM, needs_program

import report_model
import update_records as records

COUNT = int(os.environ.get("STREAMS", "400"))
SEED = int(os.environ.get("SEED", "8365"))
ALL_CAUSES = {f"refused {number}" for number in (5, 6, 7, 8, 9, 10, 11, 12, 14)} | {f"fault {number}" for number in (1, 2, 3, 4)}
ALL_CAUSES |= {"truncated", "this"}  # `this is not a record stream`


class Streams(unittest.TestCase):
    """Random streams."""

    @needs_program
    def test_program_and_model_agree(self):
        numbers = random.Random(SEED)
        words = [PROGRAM, "report", "--originators", ",".join(map(records.address_text, report_model.LISTED))]
        causes = set()
        for _turn in range(COUNT):
            stream = report_model.random_stream(numbers)
            report, notes, status = report_model.answer_to(stream, report_model.LISTED)
            done = subprocess.run(words, input=stream, capture_output=True, encoding=None, check=False)
            found = done.stdout.decode(), done.stderr.decode(), done.returncode
            self.assertEqual(found, (report, notes, status), stream.hex())
            causes |= report_model.causes_of(notes)
        self.assertEqual(causes, ALL_CAUSES)


if __name__ == "__main__":
    unittest.main()
