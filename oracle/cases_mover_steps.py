"""Cases for steps of given plans: refusal 18 clause by clause, and others."""

import ubi
from cases import Chance
from images import LAYOUT, IMAGE_SEQUENCE, BLANK
from mover import Plan, step_count

U32 = 0xFFFFFFFF
U64 = 2 ** 64 - 1


def add_step_cases(moves):
    for flash in (moves.five, moves.small):
        add_geometries(moves, flash)
        add_pebs(moves, flash)
        add_vid_headers(moves, flash)
        add_ec_headers(moves, flash)
    add_other_sizes(moves)
    add_nothing_beyond(moves)
    add_finishes(moves)
    add_plans_by_chance(moves)


def chip(flash):
    """Four PEBs: layout LEB 0, a LEB at 1, two free."""
    return flash.with_table([flash.volume()], flash.dynamic(0, 0, 3),
                            flash.free(), flash.free())


def plan_for(flash, **change):
    """One that may be stepped: PEB 1 to 2, three bytes."""
    geometry = flash.geometry
    vid = ubi.VidHeader(
        version=1, type=ubi.DYNAMIC, copy_flag=1, compatibility=0, volume=0,
        leb=0, data_size=3, used_lebs=0, data_pad=0,
        data_crc=ubi.jamcrc(b"abc"), sequence=4)
    ec = ubi.EcHeader(1, 6, geometry.vid_start, geometry.data_start,
                      IMAGE_SEQUENCE)
    return Plan(flash.peb_size, flash.unit, geometry.sub_unit, 1, 2, vid, ec,
                0)._replace(**change)


def judge(moves, flash, plans, refused=True):
    """Each plan at its start, on its way and beyond its end.

    A few plans make a case; of those that are not refused each finds what
    the last one left.
    """
    for start in range(0, len(plans), 6):
        script = moves.script(flash, chip(flash))
        for plan in plans[start:start + 6]:
            for steps in (0, 1, U32):
                answer = script.step_plan(plan._replace(steps=steps))
                wanted = "refused 18 at 0 "
                if not refused:
                    wanted = "done " if steps == U32 else "on "
                assert answer.startswith(wanted), (plan, answer)
        script.attach()
        moves.add(script)


def add_geometries(moves, flash):
    """The geometry meets 2, or the image 3."""
    judge(moves, flash, [
        plan_for(flash, peb_size=peb_size, unit=unit, sub_unit=sub_unit)
        for peb_size, unit, sub_unit in (
            (0, 1, 1), (512, 1, 1), (1023, 1, 1), (1024, 0, 0), (1024, 1, 0),
            (1024, 0, 1), (1024, 3, 1), (1024, 2, 3), (1024, 6, 2),
            (1024, 1, 2), (1024, 32, 64), (1024, 8192, 1), (1024, 65536, 1),
            (1024, 65537, 1), (1024, U32, 1), (1024, 1, U32),
            (1024, 1 << 31, 1 << 31), (1024, 512, 512), (1024, 1024, 1),
            (1024, 4096, 1), (1028, 8, 8), (262144 + 1, 1, 1),
            (262144 + 4096, 4096, 4096), (U32, 1, 1), (1 << 31, 1, 1),
            # 3: not whole PEBs, or one alone.
            (1025, 1, 1), (1030, 1, 1), (4096, 1, 1), (8192, 1, 1),
            (262144, 4096, 4096), (3072, 1, 1), (1536, 512, 64))])


def add_pebs(moves, flash):
    """A PEB is absent, or both are one."""
    judge(moves, flash, [
        plan_for(flash, old=old, target=target)
        for old, target in (
            (4, 2), (1, 4), (5, 2), (1, 5), (U32, 2), (1, U32), (4, 4),
            (U32, U32), (4, 5), (65536 + 1, 2), (1, 65536 + 2),
            (1 << 31, 2), (1, 1 << 31), (0, 0), (1, 1), (2, 2), (3, 3))])
    judge(moves, flash, [plan_for(flash, old=old, target=target)
                         for old, target in ((0, 3), (3, 0), (2, 1))], False)


def add_vid_headers(moves, flash):
    """19 would refuse the VID header."""
    full = flash.leb_size
    layout = {"volume": LAYOUT, "compatibility": 5}
    static = {"type": 2, "used_lebs": 1}
    zero = {"copy_flag": 0, "data_size": 0, "data_crc": 0}
    refused = (
        {"version": 0}, {"version": 2}, {"version": 255}, {"type": 0},
        {"type": 3}, {"copy_flag": 2}, {"copy_flag": 255},
        {"compatibility": 1}, {"compatibility": 5}, {"volume": 128},
        {"volume": LAYOUT - 1, "compatibility": 5}, {"volume": 1 << 31},
        {"volume": LAYOUT + 1}, {"volume": LAYOUT + 1, "compatibility": 3},
        {"leb": 1 << 31}, {"leb": U32}, {"used_lebs": 1},
        {"used_lebs": 1 << 31}, {"data_pad": full // 2},
        {"data_pad": 1 << 31}, {"data_size": full + 1}, {"data_size": U32},
        {"data_size": full, "data_pad": 1}, {"data_size": 0},
        {"copy_flag": 0}, dict(zero, data_crc=1), dict(zero, data_size=1),
        dict(zero, copy_flag=1), dict(static, used_lebs=0),
        dict(static, leb=1), dict(static, data_size=0),
        dict(static, used_lebs=2), dict(static, data_size=full + 1),
        dict(static, used_lebs=1 << 31, data_size=full),
        dict(layout, type=2, used_lebs=1), dict(layout, compatibility=4),
        dict(layout, data_pad=1), dict(layout, leb=2),
        dict(layout, compatibility=0))
    good = (
        {"data_size": full}, {"data_pad": full // 2 - 1}, zero,
        {"data_size": full - 5, "data_pad": 5}, {"data_crc": 0},
        {"leb": U32 >> 1, "volume": 127}, {"sequence": 0},
        {"sequence": U64}, static, dict(static, copy_flag=0), layout,
        dict(static, used_lebs=2, data_size=full), dict(layout, leb=1),
        {"volume": LAYOUT + 1, "compatibility": 5},
        {"volume": U32 >> 1, "compatibility": 2})
    base = plan_for(flash)
    judge(moves, flash, [base._replace(vid=base.vid._replace(**change))
                         for change in refused])
    judge(moves, flash, [base._replace(vid=base.vid._replace(**change))
                         for change in good], False)


def add_ec_headers(moves, flash):
    """19 would refuse the EC header, whose starts it does not judge."""
    base = plan_for(flash)
    judge(moves, flash, [base._replace(ec=base.ec._replace(**change))
                         for change in (
        {"version": 0}, {"version": 2}, {"version": 255},
        {"counter": 1 << 31}, {"counter": U32}, {"counter": 1 << 32},
        {"counter": (1 << 32) + 6}, {"counter": 1 << 63},
        {"counter": U64})])
    judge(moves, flash, [base._replace(ec=base.ec._replace(**change))
                         for change in (
        {"counter": 0}, {"counter": U32 >> 1}, {"vid_start": 0},
        {"vid_start": U32, "data_start": U32}, {"data_start": 0},
        {"image_sequence": U32}, {"image_sequence": 0})], False)


def add_other_sizes(moves):
    """A plan's geometry need not be the slip's: 18 looks at the image."""
    flash = moves.five
    for change in ({"peb_size": 2048, "old": 0, "target": 1},
                   {"peb_size": 2048, "old": 1, "target": 0},
                   {"peb_size": 1024, "unit": 16, "sub_unit": 2},
                   {"peb_size": 1024, "unit": 256, "sub_unit": 256},
                   {"peb_size": 2048, "unit": 1024, "sub_unit": 1024,
                    "old": 0, "target": 1}):
        plan = plan_for(flash, **change)
        whole_run(moves, flash, plan, refused=(change.get("unit") == 1024))
    # PEBs 2 and 3 do not stand in an image of two.
    judge(moves, flash, [plan_for(flash, peb_size=2048),
                         plan_for(flash, peb_size=2048, old=0, target=2)])


def whole_run(moves, flash, plan, refused=False):
    """From the steps that the plan has run to its end, with an attaching."""
    script = moves.script(flash, chip(flash))
    answer = script.step_plan(plan)
    assert answer.startswith("refused 18 at 0 " if refused else "on ")
    script.attach()
    if not refused:
        left = step_count(plan) - plan.steps - 1
        assert script.run(0xFFFF).startswith("ran %d done " % left)
    script.attach()
    moves.add(script)


def add_nothing_beyond(moves):
    """Plans that no beginning gives, and that 18 does not refuse."""
    for flash in (moves.units, moves.small):
        base = plan_for(flash)
        last = step_count(base)
        for change in (
                {"target": 0}, {"old": 0, "target": 1}, {"old": 3},
                {"old": 2, "target": 3}):
            whole_run(moves, flash, base._replace(**change))
        for steps in range(1, last):
            whole_run(moves, flash, base._replace(steps=steps))
        script = moves.script(flash, chip(flash))
        for steps in (last, last + 1, 255, 65536, U32 - 1, U32):
            answer = script.step_plan(base._replace(steps=steps))
            assert answer.startswith("done "), answer
        assert script.run(7).startswith("ran 0 done ")
        moves.add(script)
        # The last step of a data size that is no multiple of the unit.
        for size in (1, flash.unit - 1, flash.unit + 1, flash.leb_size - 1):
            if size <= flash.leb_size:
                whole_run(moves, flash, base._replace(
                    vid=base.vid._replace(data_size=size)))


def add_finishes(moves):
    """The rest of a move at once, from each step, and once more."""
    for flash in (moves.small, moves.units, moves.gaps):
        base = plan_for(flash)
        last = step_count(base)
        for steps in range(last + 2):
            script = moves.script(flash, chip(flash))
            script.step_plan(base._replace(steps=steps))
            assert script.finish().startswith("finished done ")
            script.attach()
            script.finish()
            moves.add(script)
        script = moves.script(flash, chip(flash))
        for change in ({"unit": 0}, {"old": 4}, {"target": 4},
                       {"target": base.old}, {"peb_size": 1}):
            script.step_plan(base._replace(**change))
            assert script.finish().startswith("finished refused 18 at 0 ")
        moves.add(script)


def add_plans_by_chance(moves):
    chance = Chance(713)
    for _ in range(40):
        flash = chance.pick([moves.small, moves.units, moves.gaps])
        blocks = chip(flash) + [BLANK] * chance.below(3)
        script = moves.script(flash, blocks)
        for _ in range(chance.between(2, 4)):
            plan = plan_for(
                flash, old=chance.below(len(blocks)),
                target=chance.below(len(blocks) + 1))
            plan = plan._replace(
                steps=chance.below(step_count(plan) + 1),
                vid=plan.vid._replace(
                    data_size=chance.between(1, flash.leb_size),
                    volume=chance.pick([0, 0, 1, LAYOUT + 1]),
                    leb=chance.below(3), data_crc=chance.below(2 ** 32),
                    sequence=chance.between(0, 9)),
                ec=plan.ec._replace(counter=chance.below(2 ** 31 + 2 ** 29)))
            script.step_plan(plan)
            if chance.below(2):
                script.run(chance.between(1, 4))
        script.attach()
        script.begin(0, 0, chance.below(len(blocks)))
        moves.add(script)
