"""Running days at their LIMIT, below the greatest tape of a day that names none and above it."""

import array
import contextlib
import json
import sys
import tempfile
from pathlib import Path

from support import DISAGREES, Case, connect, ended, ports, report, reports, started, wait_bound, wait_connected

SESSION = 7
# The entries of a day that names no limit.
FEED_TAPE_MOST = 1_048_576
# Seconds until a day of so many entries, all of which are written out as rows, must have ended.
LONG = 240
# Where a message has its number, and in how many bytes.
NUMBER_AT, NUMBER_BYTES = 4, 4


def many_reports(who, count):
    """The same bytes as `reports`, made column by column, which is faster for a million of them."""
    first = report(who, 1)
    numbers = array.array("I", range(1, count + 1))
    if sys.byteorder == "little":
        numbers.byteswap()
    columns, text = numbers.tobytes(), bytearray(first * count)
    for at in range(NUMBER_BYTES):
        text[NUMBER_AT + at :: len(first)] = columns[at::NUMBER_BYTES]
    return text


class Limits(Case):
    @contextlib.contextmanager
    def day(self, limit, *followers):
        """A day of N and Q by this limit, and a follower for each of these: `live`, the connections of N and Q, and the followers. A limit may be none."""
        line, other_line, retransmission, *row = ports(3 + 2 * max(len(followers), 1))
        a, b = (",".join(map(str, row[at::2])) for at in (0, 1))
        terms = [[SESSION, *([] if most is None else [1, most])] for most in (limit, *followers)]
        with contextlib.ExitStack() as stack:
            live = stack.enter_context(started(["live", "AB", "N,Q", line, a, b, retransmission, len(followers), *terms[0]]))
            participants = [stack.enter_context(connect(port)) for port in (line, other_line)]
            follows = []
            for own, at in zip(terms[1:], range(0, len(row), 2)):
                follows.append(stack.enter_context(started(["follow", "AB", "N,Q", *row[at : at + 2], retransmission, *own])))
                wait_bound(follows[-1], *row[at : at + 2])
            wait_connected(live, retransmission, len(followers))
            yield live, participants, follows

    def assert_counts(self, end, count):
        """A program ended well, and its report counts so many trades of 100 shares."""
        self.assertEqual((end.status, end.said), (0, b""))
        self.assert_traded(end.written, count)

    def test_a_day_with_more_messages(self):
        """OPERATING: a message past LIMIT is refused, whoever sends it, and a follower whose LIMIT the day fills holds all of it."""
        with self.day(100, 100, None) as (live, participants, follows):
            for who, participant in zip("NQ", participants):
                participant.sendall(reports(who, 80))
                participant.close()
            ends = [ended(program) for program in (live, *follows)]
        self.assert_counts(ends[0], 100)
        self.assertEqual({end.written for end in ends}, {ends[0].written})
        self.assertEqual([(end.status, end.said) for end in ends], [(0, b"")] * 3)

    def test_a_follower_of_more_entries(self):
        """OPERATING, "Statuses", 7: a follower whose LIMIT is below the day's entries ends so and writes nothing, and the day goes on without it."""
        with self.day(None, 120, 119, 1) as (live, participants, (whole, *less)):
            for who, participant in zip("NQ", participants):
                participant.sendall(reports(who, 60))
                participant.close()
            for follow in less:
                self.assert_fault(ended(follow), DISAGREES)
            for program in (live, whole):
                self.assert_counts(ended(program), 120)

    def test_more_entries_than_a_day_has_that_names_no_limit(self):
        """OPERATING: a LIMIT above FEED_TAPE_MOST is used by `live` and by `follow`, and no more entries than it are taken."""
        most = FEED_TAPE_MOST + 1
        with self.day(most, most) as (live, participants, [follow]):
            participants[0].sendall(many_reports("N", most + 1))
            for participant in participants:
                participant.close()
            ends = [ended(program) for program in (live, follow)]
        self.assertEqual(ends[0].written, ends[1].written)
        for end in ends:
            self.assert_counts(end, most)

    @contextlib.contextmanager
    def day_of_a_file(self, limit):
        """A day of N and Q whose file has this limit: `live`, the connections of N and Q, and for each of three followers its arguments and its ports.
        The first two take the file, and the last one, a `watch`, its words in a row."""
        line, other_line, retransmission, *row = ports(9)
        a, b = row[:3], row[3:]
        keys = {"symbols": ["AB"], "participants": ["N", "Q"], "port": line, "retransmission": retransmission, "a": a, "b": b}
        keys |= {"followers": 3, "session": SESSION, "limit": limit}
        with contextlib.ExitStack() as stack:
            path = Path(stack.enter_context(tempfile.TemporaryDirectory()), "day.toml")
            path.write_text("".join(f"{key} = {json.dumps(value)}\n" for key, value in keys.items()), encoding="utf-8")
            live = stack.enter_context(started(["live", path]))
            participants = [stack.enter_context(connect(port)) for port in (line, other_line)]
            words = [["follow", path], ["watch", "--follower", 2, path]]
            words.append(["watch", "AB", "N,Q", a[2], b[2], retransmission, SESSION, 1, limit])
            yield live, participants, list(zip(words, zip(a, b))), retransmission

    def test_more_entries_by_a_file(self):
        """FORMATS, `limit`: so is one of a day's file, by `live`, `follow` and `watch`; and a LIMIT of `watch` in a row."""
        most = FEED_TAPE_MOST + 1
        with contextlib.ExitStack() as stack:
            live, participants, followers, retransmission = stack.enter_context(self.day_of_a_file(most))
            # What followers write goes to files, which no reader keeps from growing.
            texts = [stack.enter_context(tempfile.TemporaryFile()) for _ in followers]
            follows = []
            for (words, bound), text in zip(followers, texts):
                follows.append(stack.enter_context(started(words, stdout=text)))
                wait_bound(follows[-1], *bound)
            wait_connected(live, retransmission, len(follows))
            participants[0].settimeout(LONG)
            participants[0].sendall(many_reports("N", most + 1))
            for participant in participants:
                participant.close()
            ends = [ended(program, LONG) for program in (live, *follows)]
            for text in texts:
                text.seek(0)
            self.assertEqual([end.status for end in ends], [0] * len(ends))
            self.assert_traded(ends[0].written, most)
            self.assertEqual(texts[0].read(), ends[0].written)
            # The names of the columns stand before the rows.
            self.assertEqual([sum(1 for _ in text) for text in texts[1:]], [1 + most] * 2)
