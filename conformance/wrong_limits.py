"""Wrong programs for which the limit on talking is another, or that make other books of those of version 1; `wrong.py` has
them among the others.
"""

WRONG_LIMITS = {
    "limit_counts_from_the_last_frame": (
        "reflector",
        "self.moment - frame.opened >= self.limit",
        "self.moment - frame.moment >= self.limit",
        "judge",
    ),
    "limit_counts_from_each_frame_anew": (
        "reflector",
        "opened = self.moment if verdict.word == \"opened\" else self.last.opened",
        "opened = self.moment",
        "judge",
    ),
    "limit_passes_a_millisecond_late": (
        "reflector",
        "self.moment - frame.opened >= self.limit",
        "self.moment - frame.opened > self.limit",
        "judge",
    ),
    "limit_passes_a_millisecond_early": (
        "reflector",
        "self.moment - frame.opened >= self.limit",
        "self.moment - frame.opened >= self.limit - 1",
        "judge",
    ),
    "limit_is_ignored": (
        "reflector",
        "return self.limit != 0 and",
        "return False and",
        "judge",
    ),
    "no_limit_has_always_passed": (
        "reflector",
        "return self.limit != 0 and",
        "return",
        "replay,check",
    ),
    "timed_out_stream_keeps_the_floor": (
        "reflector",
        "return last if is_held and not self.has_run_out(last) else None",
        "return last if is_held else None",
        "judge",
    ),
    "stream_is_not_timed_out": (
        "reflector",
        "            if self.has_run_out(own):\n"
        "                return Verdict(\"timed-out\")\n",
        "",
        "judge",
    ),
    "timed_out_packet_is_remembered": (
        "reflector",
        "            if self.has_run_out(own):\n",
        "            if self.has_run_out(own):\n"
        "                member.own = own._replace(moment=self.moment)\n",
        "judge",
    ),
    "timed_out_comes_before_repeat": (
        "reflector",
        "            if ahead == 0:\n",
        "            if self.has_run_out(own):\n"
        "                return Verdict(\"timed-out\")\n"
        "            if ahead == 0:\n",
        "judge",
    ),
    "judge_has_no_limit": (
        "reference",
        "floor = Floor(LIMIT_MS)",
        "floor = Floor(0)",
        "judge",
    ),
    "limit_of_replay_is_in_milliseconds": (
        "reference",
        "0, 86400) * 1000",
        "0, 86400)",
        "replay",
    ),
    "replay_has_no_limit_by_itself": (
        "reference",
        "\"limit\" in options else LIMIT_MS",
        "\"limit\" in options else 0",
        "replay-limit",
    ),
    "limit_of_86401": (
        "reference",
        "0, 86400) * 1000",
        "0, 86401) * 1000",
        "words-replay",
    ),
    "check_ignores_the_limit": (
        "reference",
        "floor = Floor(head.limit)",
        "floor = Floor(0)",
        "check",
    ),
    "check_has_the_limit_of_judge": (
        "reference",
        "floor = Floor(head.limit)",
        "floor = Floor(LIMIT_MS)",
        "check",
    ),
    "migrate_writes_the_limit_of_judge": (
        "reference",
        "yield book_head(head.letter, 0)",
        "yield book_head(head.letter, LIMIT_MS)",
        "migrate",
    ),
    "migrate_reads_version_2": (
        "reference",
        "read_book(data, ONE)",
        "read_book(data)",
        "migrate",
    ),
    "migrate_reads_timed_out": (
        "files",
        "ONE = Version(b\"M17BOOK1\", 0, 8,",
        "ONE = Version(b\"M17BOOK1\", 0, 9,",
        "migrate",
    ),
    "migrate_reads_joins_of_groups": (
        "files",
        "ONE = Version(b\"M17BOOK1\", 0, 8, 40**9)",
        "ONE = Version(b\"M17BOOK1\", 0, 8, 40**9 + 40**8)",
        "migrate",
    ),
    "migrate_writes_what_is_no_book": (
        "reference",
        "    head, _ = read_book(data, ONE)\n",
        "    head, _ = read_book(data, ONE, to_its_end=False)\n",
        "migrate",
    ),
    "check_reads_version_1": (
        "reference",
        "    head, kept = read_book(data)\n",
        "    head, kept = read_book(data, ONE) if data.startswith(ONE.magic) else read_book(data)\n",
        "check",
    ),
}
