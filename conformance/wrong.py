"""Wrong programs: each is the reference with one place of its text changed.

Each has a name, the file, a text that stands there once, what stands there instead, and the kinds of cases that are to
find it.
"""

from wrong_checks import WRONG_CHECKS
from wrong_limits import WRONG_LIMITS
from wrong_rules import WRONG_RULES

WRONG = {
    # packets
    "first_letter_is_most_significant": (
        "packets",
        "40**place for",
        "40 ** (len(text) - 1 - place) for",
        "make",
    ),
    "callsigns_are_printed_backwards": (
        "packets",
        "        text += LETTERS[address % 40]",
        "        text = LETTERS[address % 40] + text",
        "show",
    ),
    "crc_starts_at_zero": (
        "packets",
        "remainder = 0xFFFF",
        "remainder = 0",
        "show",
    ),
    "crc_is_not_compared": (
        "packets",
        "if found != expected",
        "if False",
        "show",
    ),
    "crc_fields_swapped": (
        "packets",
        "% (found, expected)",
        "% (expected, found)",
        "show",
    ),
    "lower_case_module_is_read": (
        "packets",
        "<= data[10] <= ord(\"Z\")",
        "<= data[10] & 0xDF <= ord(\"Z\")",
        "show",
    ),
    "bracket_is_a_module": (
        "packets",
        "<= ord(\"Z\")",
        "<= ord(\"[\")",
        "show",
    ),
    "address_zero_is_read": (
        "packets",
        "return 1 <= address",
        "return 0 <= address",
        "show,replay-hostile",
    ),
    "first_address_without_callsign_is_read": (
        "packets",
        "return 1 <= address <",
        "return 1 <= address <=",
        "show",
    ),
    "address_between_stations_and_groups_is_read": (
        "packets",
        " and address != GROUPS",
        "",
        "show",
    ),
    "groups_have_no_sign": (
        "packets",
        "text, address = \"#\", address",
        "text, address = \"\", address",
        "show",
    ),
    "broadcast_is_hex": (
        "packets",
        "\"broadcast\" if address == BROADCAST else ",
        "",
        "show",
    ),
    "short_conn_is_read": (
        "packets",
        "10: (b\"PING\"",
        "10: (b\"CONN\", b\"PING\"",
        "show",
    ),
    "end_bit_is_not_printed": (
        "packets",
        "last %d\" % (packet.number, packet.last)",
        "last %d\" % (packet.number, 0)",
        "show",
    ),
    "type_bits_moved": (
        "packets",
        "kind >> 7 & 15",
        "kind >> 7 & 7",
        "show",
    ),
    "lower_case_hex": (
        "packets",
        "data[20:34].hex().upper()",
        "data[20:34].hex()",
        "show",
    ),
    # the floor
    "floor_is_given_up_a_millisecond_early": (
        "reflector",
        "FLOOR_MS = 1600",
        "FLOOR_MS = 1599",
        "judge",
    ),
    "floor_is_given_up_a_millisecond_late": (
        "reflector",
        "FLOOR_MS = 1600",
        "FLOOR_MS = 1601",
        "judge",
    ),
    "stream_is_forgotten_a_millisecond_early": (
        "reflector",
        "MEMORY_MS = 10000",
        "MEMORY_MS = 9999",
        "judge",
    ),
    "stream_is_forgotten_a_millisecond_late": (
        "reflector",
        "MEMORY_MS = 10000",
        "MEMORY_MS = 10001",
        "judge",
    ),
    "repeat_is_admitted": (
        "reflector",
        "if ahead == 0:",
        "if False:",
        "judge",
    ),
    "half_way_round_is_ahead": (
        "reflector",
        "ahead >= 0x4000",
        "ahead > 0x4000",
        "judge",
    ),
    "just_before_half_way_is_late": (
        "reflector",
        "ahead >= 0x4000",
        "ahead >= 0x3FFF",
        "judge",
    ),
    "late_names_its_own_number": (
        "reflector",
        "\"late\", own.packet.number",
        "\"late\", packet.number",
        "judge",
    ),
    "late_frame_reopens_an_ended_stream": (
        "reflector",
        "if own.packet.last:",
        "if False:",
        "judge",
    ),
    "end_bit_keeps_the_floor": (
        "reflector",
        "last and not last.packet.last and",
        "last and",
        "judge",
    ),
    "another_stream_of_the_holder_is_admitted": (
        "reflector",
        "held.member is not member or held.packet.sid != packet.sid",
        "held.member is not member",
        "judge",
    ),
    "moment_goes_back": (
        "reflector",
        "self.moment = max(self.moment, moment)",
        "self.moment = moment",
        "judge",
    ),
    "refused_packet_does_not_move_the_moment": (
        "reference",
        "        floor.moves_to(number(record[:8]))\n",
        "        if isinstance(decode(record[10:]), Refused):\n"
        "            yield \"%d refused %s\" % (index, decode(record[10:]).reason)\n"
        "            continue\n"
        "        floor.moves_to(number(record[:8]))\n",
        "judge",
    ),
    "repeat_renews_the_floor": (
        "reflector",
        "in (\"opened\", \"continued\"):\n"
        "            opened",
        "in (\"opened\", \"continued\", \"repeat\"):\n"
        "            opened",
        "judge",
    ),
    **WRONG_LIMITS,
    **WRONG_RULES,
    # a module
    "talker_hears_itself": (
        "reflector",
        "if other is not member",
        "if True",
        "replay",
    ),
    "floor_outlives_its_holder": (
        "reflector",
        "FLOOR_MS and last.member.is_in",
        "FLOOR_MS",
        "replay-moves,replay-crowd",
    ),
    "listener_speaks": (
        "reflector",
        "if member.listens:",
        "if False:",
        "replay",
    ),
    "ping_comes_late": (
        "reflector",
        "self.floor.moment // PING_MS > before // PING_MS",
        "(self.floor.moment - 1) // PING_MS > (before - 1) // PING_MS",
        "replay",
    ),
    "ping_for_each_multiple": (
        "reflector",
        "            for member in self.in_order():\n",
        "            for member in self.in_order() * min(9, self.floor.moment // PING_MS - before // PING_MS):\n",
        "replay",
    ),
    "no_ping_before_a_silent_peer_leaves": (
        "reflector",
        "        self.tick(moment)\n"
        "        if self.recording and",
        "        if self.recording and",
        "replay-silence",
    ),
    # parrots
    "echo_a_millisecond_early": (
        "reflector",
        "ECHO_DELAY_MS = 1000",
        "ECHO_DELAY_MS = 999",
        "replay-parrot",
    ),
    "echo_a_millisecond_late": (
        "reflector",
        "ECHO_DELAY_MS = 1000",
        "ECHO_DELAY_MS = 1001",
        "replay-parrot",
    ),
    "echoes_41_apart": (
        "reflector",
        "FRAME_MS = 40",
        "FRAME_MS = 41",
        "replay-parrot",
    ),
    "a_frame_too_many_is_recorded": (
        "reflector",
        "RECORDED_FRAMES = 750",
        "RECORDED_FRAMES = 751",
        "replay-parrot",
    ),
    "open_recording_is_not_closed": (
        "reflector",
        "is None and not self.floor.holding()",
        "is None and False",
        "replay-parrot",
    ),
    "recording_outlives_its_member": (
        "reflector",
        "if self.recording and self.recording.member is member:",
        "if False:",
        "replay-parrot,replay-wild",
    ),
    "all_due_echoes_at_once": (
        "reflector",
        "            if echo:\n"
        "                self.say(recording.member.peer, echo)",
        "            while echo:\n"
        "                self.say(recording.member.peer, echo)\n"
        "                echo = recording.due(self.floor.moment)",
        "replay-parrot",
    ),
    "all_modules_are_parrots": (
        "reflector",
        "            if self.is_parrot:",
        "            if True:",
        "replay",
    ),
    # links
    "silence_a_millisecond_early": (
        "reflector",
        "SILENCE_MS = 30000",
        "SILENCE_MS = 29999",
        "replay",
    ),
    "silence_a_millisecond_late": (
        "reflector",
        "SILENCE_MS = 30000",
        "SILENCE_MS = 30001",
        "replay",
    ),
    "silence_is_tested_after_the_datagram": (
        "reflector",
        "        self.moves_to(entry.moment)\n",
        "        if isinstance(entry, Datagram) and not isinstance(decode(entry.bytes), Refused):\n"
        "            if entry.peer in self.known:\n"
        "                self.heard_at[entry.peer] = max(self.moment, entry.moment)\n"
        "        self.moves_to(entry.moment)\n",
        "replay-silence",
    ),
    "refused_bytes_keep_a_peer": (
        "reflector",
        "        if isinstance(packet, Refused):\n"
        "            return \"refused\"",
        "        if isinstance(packet, Refused):\n"
        "            if entry.peer in self.known:\n"
        "                self.heard_at[entry.peer] = self.moment\n"
        "                self.heard_at.move_to_end(entry.peer)\n"
        "            return \"refused\"",
        "replay",
    ),
    "stray_packets_do_not_keep_a_peer": (
        "reflector",
        "        if entry.peer in self.known:\n",
        "        if entry.peer in self.known and entry.bytes[:4] not in (b\"ACKN\", b\"NACK\"):\n",
        "replay",
    ),
    "quiet_does_not_move_the_moment": (
        "reflector",
        "        self.moves_to(entry.moment)\n",
        "        if isinstance(entry, Datagram):\n"
        "            self.moves_to(entry.moment)\n",
        "replay",
    ),
    "conn_with_another_callsign_is_again": (
        "reflector",
        "(known.kind, known.source, known.letter) == (packet.kind, packet.source, packet.module)",
        "(known.kind, known.letter) == (packet.kind, packet.module)",
        "replay",
    ),
    "lstn_of_a_talker_is_again": (
        "reflector",
        "(known.kind, known.source, known.letter) == (packet.kind, packet.source, packet.module)",
        "(known.source, known.letter) == (packet.source, packet.module)",
        "replay",
    ),
    "a_peer_that_moves_gets_a_disc": (
        "reflector",
        "self.leaves(peer, b\"\")",
        "self.leaves(peer, b\"DISC\")",
        "replay",
    ),
    "not_served_ends_a_membership": (
        "reflector",
        "            self.say(peer, b\"NACK\")\n"
        "            return \"not-served\"",
        "            self.say(peer, b\"NACK\")\n"
        "            if known:\n"
        "                self.leaves(peer, b\"\")\n"
        "            return \"not-served\"",
        "replay",
    ),
    "one_place_too_many": (
        "reflector",
        "        self.places = plan.places\n",
        "        self.places = plan.places + 1\n",
        "replay",
    ),
    "one_place_too_few": (
        "reflector",
        "len(taken) >= self.places:",
        "len(taken) >= max(1, self.places - 1):",
        "replay",
    ),
    "own_place_counts_for_a_peer_that_moves": (
        "reflector",
        "        if known:\n"
        "            self.leaves(peer, b\"\")\n"
        "        taken",
        "        if known and len(self.known) >= self.places:\n"
        "            self.say(peer, b\"NACK\")\n"
        "            return \"full\", \"full\"\n"
        "        if known:\n"
        "            self.leaves(peer, b\"\")\n"
        "        taken",
        "replay",
    ),
    "short_disc_of_a_stranger_is_answered": (
        "reflector",
        "kind == \"DISC\" and packet.source is not None",
        "kind == \"DISC\"",
        "replay-strangers",
    ),
    "long_disc_of_a_stranger_is_not_answered": (
        "reflector",
        "kind == \"DISC\" and packet.source is not None",
        "False",
        "replay-strangers",
    ),
    "disc_is_answered_by_the_long_form": (
        "reflector",
        "        self.leaves(peer, b\"DISC\")",
        "        self.leaves(peer, b\"\")",
        "replay",
    ),
    "fifteen_faults_end_the_link": (
        "reflector",
        "LOST_AFTER = 16",
        "LOST_AFTER = 15",
        "replay-faults",
    ),
    "seventeen_faults_end_the_link": (
        "reflector",
        "LOST_AFTER = 16",
        "LOST_AFTER = 17",
        "replay-faults",
    ),
    "faults_are_counted_over_other_entries": (
        "reflector",
        "        self.faults = 0\n"
        "        self.moves_to",
        "        self.moves_to",
        "replay-faults",
    ),
    "port_is_no_part_of_a_peer": (
        "reflector",
        "        if entry.peer in self.known:\n",
        "        entry = entry._replace(peer=entry.peer._replace(port=0))\n"
        "        if entry.peer in self.known:\n",
        "replay",
    ),
    # files
    "length_65_is_read": (
        "files",
        "fields.number(1, 0, 64)",
        "fields.number(1, 0, 65)",
        "replay-bytes",
    ),
    "family_is_not_judged": (
        "files",
        "lambda field: field in (b\"\\4\", b\"\\6\")",
        "lambda field: True",
        "replay-bytes",
    ),
    "cut_at_the_fields_place": (
        "files",
        "raise InputRefused(len(self.data), \"cut\")",
        "raise InputRefused(self.at, \"cut\")",
        "replay-bytes",
    ),
    "header_is_refused_before_it_is_whole": (
        "files",
        "        found = self.take(len(magic))\n",
        "        if not magic.startswith(self.data[: len(magic)]):\n"
        "            raise InputRefused(0, \"field\")\n"
        "        found = self.take(len(magic))\n",
        "replay-bytes,check-bytes",
    ),
    "link_4_is_read": (
        "files",
        "fields.number(1, 0, 3)",
        "fields.number(1, 0, 4)",
        "check",
    ),
    "place_256_is_read": (
        "files",
        "fields.number(4, 0, 255)",
        "fields.number(4, 0, 256)",
        "check",
    ),
    "busy_at_place_256_is_read": (
        "files",
        "number(field[:4]) <= 255",
        "number(field[:4]) <= 256",
        "check",
    ),
    "value_is_not_judged": (
        "files",
        "return field == bytes(12)",
        "return True",
        "check",
    ),
    "packet_is_not_judged": (
        "files",
        "isinstance(decode(field), Stream))",
        "field[:4] == b\"M17 \")",
        "check",
    ),
    **WRONG_CHECKS,
    # show
    "carriage_return_is_a_digit_too_many": (
        "reference",
        "if line.endswith(b\"\\r\"):",
        "if False:",
        "show",
    ),
    "all_carriage_returns_are_dropped": (
        "reference",
        "            line = line[:-1]\n",
        "            line = line.rstrip(b\"\\r\")\n",
        "show",
    ),
    "257_is_not_long": (
        "reference",
        "len(line) > 256",
        "len(line) > 257",
        "show",
    ),
    "256_is_long": (
        "reference",
        "len(line) > 256",
        "len(line) > 255",
        "show",
    ),
    "digit_before_odd": (
        "reference",
        "        if len(line) % 2:\n",
        "        if any(byte not in HEX_DIGITS for byte in line):\n"
        "            raise InputRefused(index, \"digit\")\n"
        "        if len(line) % 2:\n",
        "show",
    ),
    "a_last_line_after_a_line_feed": (
        "reference",
        "        lines.pop()\n",
        "        pass\n",
        "show",
    ),
    # the summary
    "summary_names_what_was_not_heard": (
        "reference",
        "entries[: len(heard)]",
        "entries",
        "replay-faults",
    ),
    "peers_in_order_of_their_texts": (
        "reference",
        "isinstance(entry, Datagram)}):",
        "isinstance(entry, Datagram)}, key=peer_text):",
        "replay",
    ),
    # make
    "make_holds_a_frame_at_2_left": (
        "made",
        "t.left >= 3",
        "t.left >= 2",
        "make",
    ),
    "make_rests_4": (
        "made",
        "t.rest = 5",
        "t.rest = 4",
        "make",
    ),
    "make_draws_the_stream_first": (
        "made",
        "            t.who = m + 3 * draw(4)\n"
        "            t.sid = draw(65536)\n",
        "            t.sid = draw(65536)\n"
        "            t.who = m + 3 * draw(4)\n",
        "make",
    ),
    "make_interrupts_by_the_talker": (
        "made",
        "// 3 + 1) % 4",
        "// 3 + 4) % 4",
        "make",
    ),
    # words
    "plus_is_a_sign": (
        "reference",
        "    digits = text",
        "    text = text[1:] if text[:1] == \"+\" else text\n"
        "    digits = text",
        "words",
    ),
    "257_places": (
        "reference",
        "\"64\"), 1, 256)",
        "\"64\"), 1, 257)",
        "words",
    ),
    "no_places": (
        "reference",
        "\"64\"), 1, 256)",
        "\"64\"), 0, 256)",
        "words",
    ),
    "parrots_elsewhere": (
        "reference",
        "or not parrots <= modules",
        "",
        "words",
    ),
    "letters_may_come_twice": (
        "reference",
        " or len(set(text)) < len(text)",
        "",
        "words",
    ),
    "last_option_holds": (
        "reference",
        " or name in options or",
        " or",
        "words",
    ),
    "two_hyphens_are_refused": (
        "reference",
        "        elif word == \"--\" and not only_others:\n"
        "            only_others = True\n",
        "",
        "words",
    ),
    "hyphen_values_are_read": (
        "reference",
        "            if is_option:\n"
        "                raise WordsRefused()\n",
        "",
        "words",
    ),
    "lone_hyphen_is_an_option": (
        "reference",
        "word != \"-\" and not",
        "not",
        "words",
    ),
    "flag_with_a_value": (
        "reference",
        " or (equals and name in flags)",
        "",
        "words",
    ),
    "make_takes_a_number_too_large": (
        "reference",
        "0, 100000)",
        "0, 100001)",
        "words-make",
    ),
    "summary_passes_over_quiet_peers": (
        "reference",
        "            tally = tallies.get(peer, NOTHING_SAID)\n",
        "            if peer not in tallies:\n"
        "                continue\n"
        "            tally = tallies.get(peer, NOTHING_SAID)\n",
        "replay",
    ),
    # more
    "kind_is_refused_after_the_length": (
        "files",
        "            entries.append(read_datagram(fields))",
        "            entries.append(read_datagram(fields)) if len(data) > fields.at + 15 else fields.take(99)",
        "replay-bytes",
    ),
    "words_that_are_no_text_are_read": (
        "reference",
        "word.decode() for",
        "word.decode(errors=\"ignore\") for",
        "words",
    ),
}
