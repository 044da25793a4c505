"""Cases of `test_mover`: a list of calls on one image, and their lines.

A `Bench` carries out the operations of a payload one by one and keeps what
they leave: the image, the lent tables and the plan. The cases are written
with a `Script`, which carries out each operation at once and notes it.
"""

import attach
import mover
import ubi
from frames import (LENT_BEFORE, MAX_IMAGE, MAX_LENT_WORDS, Fields,
                    as_patches, attach_head, attach_lines, attach_parts,
                    counted, line, part, patch, patched, tables_lines)

BEGIN, PLAN, RUN, FINISH, CUT, ATTACH, LOOK_UP = range(1, 8)

# The numbers of a plan with their widths, in the order of payloads and
# lines: the two headers' fields in the order of their bytes.
FRONT_WIDTHS = (4, 4, 4, 4, 4)
STEPS_WIDTH = 4


def plan_numbers(plan):
    return list(plan[:5]) + list(plan.vid) + list(plan.ec) + [plan.steps]


def plan_widths():
    headers = [width for _, _, width in ubi.VID_FIELDS + ubi.EC_FIELDS]
    return list(FRONT_WIDTHS) + headers + [STEPS_WIDTH]


def plan_bytes(plan):
    return b"".join(number.to_bytes(width, "big") for number, width in zip(
        plan_numbers(plan), plan_widths()))


def plan_from(fields):
    front = [fields.number(width) for width in FRONT_WIDTHS]
    vid = ubi.VidHeader(*fields.numbers(ubi.VID_FIELDS))
    ec = ubi.EcHeader(*fields.numbers(ubi.EC_FIELDS))
    return mover.Plan(*(front + [vid, ec, fields.number(STEPS_WIDTH)]))


# ------------------------------------------------------------- operations

class Bench:
    """What the calls of one case leave behind them."""

    def __init__(self, slip, lent, image):
        self.slip = slip
        self.image = image
        self.lent = lent
        self.plan = None

    def begin(self, volume, leb, target):
        """A refused beginning leaves the plan of an earlier one."""
        try:
            self.plan = mover.begin(self.slip, self.image, self.lent, volume,
                                    leb, target)
            words = ["planned"] + plan_numbers(self.plan)
        except ubi.Refused as refused:
            words = [attach.refusal_line(refused)]
        first = line(*(words + self.image_words()))
        return "\n".join([first] + tables_lines(self.lent))

    def one_step(self):
        """The answer, with the number of steps run if it is `on`."""
        assert self.plan is not None, "no move was begun"
        try:
            answer, self.plan, self.image = mover.step(self.plan, self.image)
        except ubi.Refused as refused:
            return attach.refusal_line(refused)
        if answer == mover.ON:
            return line(answer, self.plan.steps)
        return answer

    def run(self, most):
        """Steps until one does not answer `on`, at most so many."""
        assert most > 0
        went_on = 0
        answer = ""
        for _ in range(most):
            answer = self.one_step()
            if not answer.startswith(mover.ON):
                break
            went_on += 1
        return line("ran", went_on, answer, *self.image_words())

    def finish(self):
        """All steps that are left; the plan stays as it is."""
        plan = self.plan
        answer = mover.ON
        while answer.startswith(mover.ON):
            answer = self.one_step()
        self.plan = plan
        return line("finished", answer, *self.image_words())

    def look_up(self, peb_count, peb, entries, volume, leb):
        """What tables of so many PEBs and entries say; all need be there."""
        pebs, entry = self.lent.pebs, self.lent.map
        words = ["absent"]
        if peb < peb_count and 2 * peb + 2 <= len(pebs):
            words = pebs[2 * peb:2 * peb + 2]
        places = ["absent"]
        if 3 * entries <= len(entry):
            places = [entry[3 * at + 2] for at in range(entries)
                      if entry[3 * at:3 * at + 2] == [volume, leb]] + places
        return line("peb", *(words + ["leb", places[0]] + self.image_words()))

    def cut(self, image):
        assert len(image) == len(self.image)
        self.image = image
        return line("cut", *self.image_words())

    def attach(self):
        lines = attach_lines(self.slip, self.image, self.lent)
        return lines + "\n" + line(*self.image_words())

    def image_words(self):
        return ["image", ubi.jamcrc(self.image)]


def operation_lines(bench, operation_bytes):
    """The line or lines of an operation."""
    fields = Fields(operation_bytes)
    answer = answer_of(bench, fields)
    assert fields.at_end()
    return answer


def answer_of(bench, fields):
    operation = fields.number(1)
    if operation == BEGIN:
        return bench.begin(*[fields.number(4) for _ in range(3)])
    if operation == PLAN:
        bench.plan = plan_from(fields)
        return ""
    if operation == RUN:
        return bench.run(fields.number(2))
    if operation == CUT:
        return bench.cut(patched(fields, bench.image))
    if operation == FINISH:
        return bench.finish()
    if operation == LOOK_UP:
        return bench.look_up(*[fields.number(4) for _ in range(5)])
    assert operation == ATTACH, "no such operation"
    return bench.attach()


def mover_answer(payload):
    fields = Fields(payload)
    bench = Bench(*attach_parts(fields))
    lines = []
    for _ in range(fields.number(2)):
        operation_bytes = fields.bytes(fields.number(2))
        lines.append(operation_lines(bench, operation_bytes))
    assert fields.at_end()
    return "\n".join(filter(None, lines))


# ------------------------------------------------------- writing payloads

class Script:
    """A case in the making: each operation is carried out and noted."""

    def __init__(self, slip, lent_lengths, image):
        assert len(image) <= MAX_IMAGE
        assert max(lent_lengths) <= MAX_LENT_WORDS
        lent = attach.Lent(*([LENT_BEFORE] * length
                             for length in lent_lengths))
        self.bench = Bench(slip, lent, image)
        self.head = attach_head(slip, lent_lengths, len(image))
        self.head += as_patches(image)
        self.operations = []

    @property
    def image(self):
        return self.bench.image

    @property
    def plan(self):
        return self.bench.plan

    def note(self, operation, *parts):
        self.operations.append(part(bytes([operation]) + b"".join(parts)))

    def payload(self):
        return self.head + counted(self.operations)

    def begin(self, volume, leb, target):
        self.note(BEGIN, *words_bytes(volume, leb, target))
        return self.bench.begin(volume, leb, target)

    def step(self):
        """One step; gives its answer alone."""
        return self.run(1).split(" ", 2)[2]

    def run(self, most):
        self.note(RUN, most.to_bytes(2, "big"))
        return self.bench.run(most)

    def step_plan(self, plan):
        """One step of a given plan."""
        self.note(PLAN, plan_bytes(plan))
        self.bench.plan = plan
        return self.step()

    def attach(self):
        self.note(ATTACH)
        return self.bench.attach()

    def finish(self):
        self.note(FINISH)
        return self.bench.finish()

    def look_up(self, *numbers):
        """PEB count, PEB, number of entries, volume and LEB."""
        self.note(LOOK_UP, *words_bytes(*numbers))
        return self.bench.look_up(*numbers)

    def cut(self, cut):
        """The plan's next step as a cut of it leaves the image."""
        geometry = mover.judged_geometry(self.plan, self.image)
        write = mover.write_of(self.plan, geometry, self.image)
        return self.change(mover.cut_image(write, self.image, cut))

    def change(self, image):
        """Another image of the same length, noted as what differs."""
        self.note(CUT, counted(patches_between(self.image, image)))
        return self.bench.cut(image)


def words_bytes(*numbers):
    return [number.to_bytes(4, "big") for number in numbers]


def patches_between(before, after):
    """Runs of bytes that differ; near ones together, as numbers cost too."""
    runs = []
    for at in range(len(before)):
        if before[at] == after[at]:
            continue
        if runs and at - runs[-1][1] < 6:
            runs[-1][1] = at + 1
        else:
            runs.append([at, at + 1])
    return [patch(start, after[start:end]) for start, end in runs]


# ------------------------------------------------------------------ kinds

# The operation that a line belongs to, by its first word.
OPERATION_OF = {"planned": "begin", "attached": "attach"}


def mover_kinds(payload, answer):
    """What each operation answered, from its line: all are counted."""
    return [kind_of_line(text.split(" ")) for text in answer.split("\n")
            if text.split(" ")[0] not in ("pebs", "map", "states", "image")]


def kind_of_line(words):
    if words[0] == "cut":
        return "cut"
    if words[0] == "ran":
        # Behind the number of steps stands what the last one answered.
        return "run " + refusal_or_first(words[2:])
    if words[0] == "peb":
        # Two words of a PEB, or one that none are there.
        behind = words[2:] if words[1] == "absent" else words[3:]
        return "peb %s leb %s" % (given(words[1]), given(behind[1]))
    if words[0] == "finished":
        return "finish " + refusal_or_first(words[1:])
    if words[0] == "refused":
        operation = "begin" if words[4:] else "attach"
    else:
        operation = OPERATION_OF[words[0]]
    return operation + " " + refusal_or_first(words)


def given(word):
    return word if word == "absent" else "given"


def refusal_or_first(words):
    return " ".join(words[:2] if words[0] == "refused" else words[:1])
