"""Faults of the floor: who may speak."""

import reflector
from planted import fault, instead
from reflector import Floor, Module, Verdict


def judges_instead(change):
    """Verdicts go through `change`, which is given the floor, the member, the packet and the verdict that is right."""

    @instead(Floor, "verdict")
    def verdict(old, floor, member, packet):
        return change(floor, member, packet, old(floor, member, packet))


def admits(words):
    """What has one of these verdicts is admitted."""

    def change(floor, _member, _packet, found):
        return Verdict("continued" if floor.holding() else "opened") if found.word in words else found

    judges_instead(change)


@fault("floor.repeat-is-admitted", "floor.repeat clock.again clock.refused-holds-nothing")
def repeat_is_admitted():
    admits(("repeat",))


@fault("floor.late-is-admitted", "floor.late floor.ahead clock.again clock.refused-holds-nothing")
def late_is_admitted():
    admits(("late",))


@fault("floor.after-end-is-admitted", "floor.after-end clock.remembered clock.forgotten")
def after_end_is_admitted():
    admits(("after-end",))


@fault("floor.listeners-may-speak", "floor.listen-only asking.other-kind")
def listeners_may_speak():
    @instead(Floor, "verdict")
    def verdict(old, floor, member, packet):
        if member is None or not member.listens:
            return old(floor, member, packet)
        member.listens = False
        try:
            return old(floor, member, packet)
        finally:
            member.listens = True


@fault("floor.numbers-dont-go-round", "floor.wrap floor.ahead")
def numbers_dont_go_round():
    def change(floor, member, packet, found):
        own = member.own
        is_same = own and own.packet.sid == packet.sid and floor.moment - own.moment < 10000
        return Verdict("late", own.packet.number) if is_same and packet.number < own.packet.number else found

    judges_instead(change)


@fault("floor.a-gap-is-refused", "floor.go-on floor.late floor.ahead parrot.plays")
def a_gap_is_refused():
    def change(_floor, member, packet, found):
        own = member.own
        is_next = not own or own.packet.sid != packet.sid or (packet.number - own.packet.number) % 0x8000 == 1
        return found if is_next or found.word != "continued" or packet.last else Verdict("late", own.packet.number)

    judges_instead(change)


@fault("floor.a-step-too-many", "floor.ahead")
def a_step_too_many():
    def change(floor, member, packet, found):
        own = member.own
        if found.word == "late" and (packet.number - own.packet.number) % 0x8000 == 0x4000:
            return Verdict("continued" if floor.holding() else "opened")
        return found

    judges_instead(change)


@fault("floor.same-id-goes-on", "floor.same-id")
def same_id_goes_on():
    def change(floor, _member, packet, found):
        held = floor.holding()
        return Verdict("continued") if found.word == "busy" and held.packet.sid == packet.sid else found

    judges_instead(change)


@fault("floor.holder-may-begin-anew", "floor.own-second")
def holder_may_begin_anew():
    def change(floor, member, _packet, found):
        return Verdict("continued") if found.word == "busy" and floor.holding().member is member else found

    judges_instead(change)


@fault("floor.high-numbers-open-nothing", "floor.open floor.wrap")
def high_numbers_open_nothing():
    def change(_floor, member, packet, found):
        is_new = not member.own or member.own.packet.sid != packet.sid
        return Verdict("late", 0) if found.word == "opened" and is_new and packet.number >= 16384 else found

    judges_instead(change)


@fault("floor.last-frame-opens-nothing", "floor.open")
def last_frame_opens_nothing():
    def change(_floor, _member, packet, found):
        return Verdict("late", 0) if found.word == "opened" and packet.last and packet.number == 32767 else found

    judges_instead(change)


@fault("floor.busy-takes-by-turns", "floor.two-at-once")
def busy_takes_by_turns():
    def change(_floor, _member, packet, found):
        return Verdict("continued") if found.word == "busy" and packet.number == 5 else found

    judges_instead(change)


@fault(
    "floor.busy-is-relayed",
    "floor.busy floor.two-at-once floor.same-id floor.own-second floor.busy-end asking.again clock.held clock.limit "
    "clock.busy-holds-nothing",
)
def busy_is_relayed():
    @instead(Module, "packet")
    def packet(old, module, moment, member, packet):
        verdict = old(module, moment, member, packet)
        if verdict.word == "busy":
            for other in module.in_order():
                if other is not member:
                    module.say(other.peer, packet.bytes)
        return verdict


@fault("floor.any-end-bit-frees", "floor.busy-end")
def any_end_bit_frees():
    @instead(Floor, "judge")
    def judge(old, floor, member, packet):
        verdict = old(floor, member, packet)
        if verdict.word == "busy" and packet.last:
            floor.last = None
        return verdict


@fault("floor.end-bit-frees-for-the-talker", "floor.end-bit asking.second-port clock.limit load.few parrot.last-talker")
def end_bit_frees_for_the_talker():
    def change(floor, member, _packet, found):
        last = floor.last
        is_fresh = last and last.packet.last and last.member.is_in and floor.moment - last.moment < 1600
        is_other = is_fresh and last.member is not member
        return Verdict("busy", last.member) if is_other and found.word == "opened" else found

    judges_instead(change)


def keeps_the_floor(farewell_of):
    @instead(Module, "leave")
    def leave(old, module, moment, member, farewell):
        old(module, moment, member, farewell)
        member.is_in = bool(farewell) == farewell_of


@fault("floor.leaving-keeps-it", "floor.leave")
def leaving_keeps_it():
    keeps_the_floor(True)


@fault("floor.moving-keeps-it", "floor.move asking.other-call")
def moving_keeps_it():
    keeps_the_floor(False)


@fault("floor.comers-are-remembered", "floor.back")
def comers_are_remembered():
    owns = {}

    @instead(Module, "leave")
    def leave(old, module, moment, member, farewell):
        owns[module, member.peer] = member.own
        old(module, moment, member, farewell)

    @instead(Module, "join")
    def join(old, module, moment, member):
        member.own = owns.get((module, member.peer))
        old(module, moment, member)


# ---- by the clock


@fault("clock.lost-after-1300-ms", "clock.held clock.busy-holds-nothing parrot.silence")
def lost_after_1300_ms():
    reflector.FLOOR_MS = 1300


@fault("clock.kept-for-2500-ms", "clock.freed clock.refused-holds-nothing clock.busy-holds-nothing parrot.silence")
def kept_for_2500_ms():
    reflector.FLOOR_MS = 2500


def holds_by(words):
    @instead(Floor, "judge")
    def judge(old, floor, member, packet):
        verdict = old(floor, member, packet)
        if verdict.word in words and floor.holding():
            floor.last = floor.last._replace(moment=floor.moment)
        return verdict


@fault("clock.repeats-hold", "clock.refused-holds-nothing")
def repeats_hold():
    holds_by(("repeat", "late"))


@fault("clock.busy-holds", "clock.busy-holds-nothing")
def busy_holds():
    holds_by(("busy",))


@fault("clock.who-fell-silent-is-out", "clock.again")
def who_fell_silent_is_out():
    def change(_floor, member, packet, found):
        is_same = member.own and member.own.packet.sid == packet.sid
        return Verdict("after-end") if found.word == "opened" and is_same and not member.own.packet.last else found

    judges_instead(change)


@fault("clock.forgotten-after-nine-seconds", "clock.remembered")
def forgotten_after_nine_seconds():
    reflector.STREAM_MEMORY_MS = 9000


@fault("clock.never-forgotten", "clock.forgotten")
def never_forgotten():
    reflector.STREAM_MEMORY_MS = 1 << 60


@fault("clock.refused-is-remembered", "clock.forgotten")
def refused_is_remembered():
    @instead(Floor, "judge")
    def judge(old, floor, member, packet):
        verdict = old(floor, member, packet)
        if verdict.word == "after-end":
            member.own = member.own._replace(moment=floor.moment)
        return verdict


# ---- the limit on talking


@fault("clock.no-limit", "clock.limit")
def no_limit():
    Floor.has_run_out = lambda floor, frame: False


@fault("clock.limit-keeps-the-floor", "clock.limit")
def limit_keeps_the_floor():
    @instead(Floor, "holding")
    def holding(old, floor):
        last = floor.last
        is_fresh = last and not last.packet.last and last.member.is_in and floor.moment - last.moment < 1600
        return last if is_fresh else old(floor)


@fault("clock.limit-is-of-the-talker", "clock.limit")
def limit_is_of_the_talker():
    out = set()

    def change(_floor, member, _packet, found):
        if found.word == "timed-out":
            out.add(member)
        return Verdict("timed-out") if member in out else found

    judges_instead(change)
