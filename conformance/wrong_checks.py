"""Wrong programs whose `check` says otherwise of books; `wrong.py` has them among the others."""

WRONG_CHECKS = {
    "moments_may_fall": (
        "reference",
        "if record.moment < floor.moment:",
        "if False:",
        "check",
    ),
    "join_at_a_held_place_is_legal": (
        "reference",
        "if member is not None:\n",
        "if is_in:\n",
        "check",
    ),
    "generation_is_no_part_of_a_member": (
        "reference",
        "member is not None and member.generation == record.generation",
        "member is not None",
        "check",
    ),
    "value_is_not_compared": (
        "reference",
        "(verdict.word, value_bytes(verdict)) != (record.verdict, record.value)",
        "verdict.word != record.verdict",
        "check",
    ),
    "member_before_moment": (
        "reference",
        "        if record.moment < floor.moment:\n",
        "        if record.kind == 1 and record.place in members:\n"
        "            raise InputRefused(index, \"member\")\n"
        "        if record.moment < floor.moment:\n",
        "check",
    ),
    "join_of_the_same_member_again_is_legal": (
        "reference",
        "if member is not None:\n",
        "if member is not None and not is_in:\n",
        "check",
    ),
    "leave_of_a_stranger_is_legal": (
        "reference",
        "            if not is_in:\n"
        "                raise InputRefused(index, \"member\")\n"
        "            members.pop(record.place).is_in = False\n",
        "            if is_in:\n"
        "                members.pop(record.place).is_in = False\n",
        "check",
    ),
    "leave_of_another_generation_is_legal": (
        "reference",
        "            if not is_in:\n",
        "            if member is None:\n",
        "check",
    ),
    "leave_is_forgotten": (
        "reference",
        "            members.pop(record.place).is_in = False\n",
        "            pass\n",
        "check",
    ),
    "who_left_has_the_floor_still": (
        "reference",
        "            members.pop(record.place).is_in = False\n",
        "            members.pop(record.place)\n",
        "check",
    ),
    "nothing_is_looked_at_behind_a_leave": (
        "reference",
        "            members.pop(record.place).is_in = False\n",
        "            break\n",
        "check",
    ),
    "two_streams_may_overlap": (
        "reference",
        "            if (verdict.word, value_bytes(verdict)) !=",
        "            if record.verdict == \"opened\" and verdict.word == \"busy\":\n"
        "                continue\n"
        "            if (verdict.word, value_bytes(verdict)) !=",
        "check",
    ),
    "packets_that_are_not_admitted_are_passed_over": (
        "reference",
        "            if (verdict.word, value_bytes(verdict)) !=",
        "            if verdict.word not in (\"opened\", \"continued\"):\n"
        "                continue\n"
        "            if (verdict.word, value_bytes(verdict)) !=",
        "check",
    ),
    "generation_has_32_bits": (
        "reference",
        "member.generation == record.generation",
        "member.generation % 2**32 == record.generation % 2**32",
        "check",
    ),
    "64_places": (
        "reference",
        "if member is not None:\n",
        "if member is not None or record.place >= 64:\n",
        "check",
    ),
    "equal_moments_fall": (
        "reference",
        "if record.moment < floor.moment:",
        "if index and record.moment <= floor.moment:",
        "check",
    ),
    "breach_before_the_form_of_the_rest": (
        "reference",
        "head, kept = read_book(data)\n",
        "head, kept = read_book(data, to_its_end=False)\n",
        "check",
    ),
    "form_is_told_by_the_number_of_the_record": (
        "files",
        "        fields.number(1, 0, 3)  # link\n",
        "        fields.take(1, lambda field: field[0] <= 3 or fields.take(len(fields.data)))  # link\n",
        "check",
    ),
    "streams_are_all_admitted": (
        "reference",
        "streams += verdict.word == \"opened\"",
        "streams += verdict.word in (\"opened\", \"continued\")",
        "check",
    ),
    "first_packets_are_not_counted_as_admitted": (
        "reference",
        "            admitted += verdict.word in (\"opened\", \"continued\")\n        records",
        "            admitted += verdict.word == \"continued\"\n        records",
        "check",
    ),
}
