"""The readable tape of a running day, as `tapebox watch` writes it."""

from support import DISAGREES, LIMIT, READ_FAULT, TAPE_COLUMNS, WRITE_FAULT, Case, Ended, connect, desk, ended, ports, started, wait_bound

HEAD = b"kind,participant,number,symbol,target,price,size,condition\n"
ROWS = [
    b"report,N,1,AB,,10.00,100,@___\n",
    b"report,N,2,C,,0.0125,700,@___\n",
    b"report,N,3,AB,,10.05,200,@_Z_\n",
    b"correct,N,4,AB,1,9.95,150,@___\n",
    b"cancel,N,5,C,2,,,\n",
    b"report,N,7,AB,,10.10,100,@___\n",
]
# A sale of an odd lot, which sets the high by Matrix Two alone.
ODD_LOT = b"report,N,8,AB,,11.00,50,@__I\n"


class FollowedTape(Case):
    """A day of one participant, whose tape is that of its table."""

    def day(self, case, terms=(7,), held=(7,), **options):
        """Runs a case on `live`, its follower and a connection of the participant, once the follower reads both lines. The terms are the session, the
        matrix and the limit of the one and of the other."""
        line, a, b, retransmission = ports(4)
        with started(["live", "AB,C", "N", line, a, b, retransmission, 1, *terms]) as live, connect(line) as participant:
            with started(["watch", "AB,C", "N", a, b, retransmission, *held], **options) as watch:
                wait_bound(watch, a, b)
                case(live, watch, participant)

    def send(self, participant, rows):
        """Sends the messages of rows as the participant's line."""
        line = desk("line", "N", given=HEAD + b"".join(rows))
        self.assertEqual((line.status, line.said), (0, b""))
        participant.sendall(line.written)

    def test_each_row_once_and_at_once(self):
        """OPERATING: `watch` writes the tape that `tape` writes of the same messages, and each row before the next message comes."""
        tape = desk("tape", given=HEAD + b"".join(ROWS)).written

        def case(live, watch, participant):
            lines = []
            for at, row in enumerate(ROWS):
                self.send(participant, [row])
                lines += [watch.stdout.readline() for _ in range(1 if at else 2)]
            participant.close()
            rest = ended(watch)
            self.assertEqual((rest.status, rest.said), (0, b""))
            self.assertEqual(b"".join(lines) + rest.written, tape)
            for count in range(1, len(ROWS) + 1):
                recorded = desk("verify", given=b"".join(lines[: count + 1]))
                self.assertEqual(recorded, Ended(0, b"%d entr%s, 0 refusals, all as recorded\n" % (count, b"y" if count == 1 else b"ies"), b""))
            self.assertEqual(ended(live).status, 0)

        self.day(case)

    def test_other_terms(self):
        """OPERATING: the arguments of `watch` are a session, a matrix and a limit, by which the tape goes."""
        rows = [*ROWS, ODD_LOT]
        given = HEAD + b"".join(rows)
        tape = desk("tape", matrix=2, given=given).written
        self.assertNotEqual(tape, desk("tape", matrix=1, given=given).written)

        def case(live, watch, participant):
            self.send(participant, rows)
            participant.close()
            self.assertEqual(ended(watch), Ended(0, tape, b""))
            self.assertEqual(ended(live).status, 0)

        self.day(case, (9, 2, len(rows)), (9, 2, len(rows)))

    def test_a_limit_below_the_days(self):
        """OPERATING, "What you see": a LIMIT below the day's ends `watch` with status 7; the rows up to it were written."""
        tape = desk("tape", given=HEAD + b"".join(ROWS)).written

        def case(live, watch, participant):
            self.send(participant, ROWS)
            participant.close()
            status, said = DISAGREES
            rows = b"".join(tape.splitlines(keepends=True)[: len(ROWS)])
            self.assertEqual(ended(watch), Ended(status, rows, said))
            self.assertEqual(ended(live).status, 0)

        self.day(case, held=(7, 1, len(ROWS) - 1))

    def test_a_full_output(self):
        """OPERATING: a row that is not written ends the run with status 4, and the day goes on without it."""

        def case(live, watch, participant):
            self.send(participant, ROWS)
            self.assert_fault(ended(watch), WRITE_FAULT)
            participant.close()
            self.assertEqual(ended(live).status, 0)

        with open("/dev/full", "wb") as full:
            self.day(case, stdout=full)

    def test_a_closed_pipe(self):
        """OPERATING: a pipe whose other end is closed ends it so too, and nothing is said."""

        def case(live, watch, participant):
            watch.stdout.close()
            self.send(participant, ROWS)
            watch.wait(LIMIT)
            self.assertEqual((watch.returncode, watch.stderr.read()), (WRITE_FAULT[0], b""))
            participant.close()
            self.assertEqual(ended(live).status, 0)

        self.day(case)

    def test_no_day(self):
        """OPERATING: without a day to connect to no row is written, and with other arguments nothing at all."""
        a, b, retransmission = ports(3)
        status, said = READ_FAULT
        self.assertEqual(desk("watch", "AB", "N", a, b, retransmission, 7), Ended(status, f"{','.join(TAPE_COLUMNS)}\n".encode(), said))
        for words in ([], ["AB", "N", a, b, retransmission], ["AB,AB", "N", a, b, retransmission, 7], ["AB", "N", a, 0, retransmission, 7]):
            with self.subTest(words):
                self.assert_bad_arguments(desk("watch", *words), rb"usage: tapebox watch [^\n]+")
