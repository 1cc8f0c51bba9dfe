"""Wrong programs that read rules of callsigns otherwise; `wrong.py` has them among the others."""

WRONG_RULES = {
    "carriage_return_of_a_rule_is_kept": (
        "rules",
        "[line[:-1] if line.endswith(b\"\\r\") else line for line in lines]",
        "lines",
        "serve",
    ),
    "rules_may_have_a_byte_more": ("rules", "MOST_BYTES = 65536", "MOST_BYTES = 65537", "serve"),
    "rules_may_have_a_byte_less": ("rules", "MOST_BYTES = 65536", "MOST_BYTES = 65535", "serve"),
    "large_rules_are_refused_by_their_lines": ("rules", "if len(data) > MOST_BYTES:", "if False:", "serve"),
    "lines_of_rules_count_from_one": ("rules", "enumerate(lines_of(data))", "enumerate(lines_of(data), 1)", "serve"),
    "lines_without_a_rule_do_not_count": (
        "rules",
        "enumerate(lines_of(data))",
        "enumerate(line for line in lines_of(data) if line and line[:1] != b\";\")",
        "serve",
    ),
    "remarks_are_refused": ("rules", "line == b\"\" or line.startswith(b\";\")", "line == b\"\"", "serve"),
    "spaces_in_a_row_are_one": (
        "rules",
        "line.decode(\"latin-1\").split(\" \", 3)",
        "line.decode(\"latin-1\").split(None, 3)",
        "serve",
    ),
    "who_speaks_is_asked_by_module": (
        "rules",
        "(kind == \"talk\" or not are_modules(modules))",
        "not are_modules(modules)",
        "serve",
    ),
    "modules_of_a_rule_may_stand_twice": ("rules", " and len(set(text)) == len(text)", "", "serve"),
    "modules_of_a_rule_may_be_missing": ("rules", "text != \"\" and ", "", "serve"),
    "last_refused_part_is_named": (
        "rules",
        "    if act not in (\"allow\", \"deny\"):\n"
        "        return \"act\"\n",
        "    if not is_pattern(pattern):\n"
        "        return \"pattern\"\n"
        "    if act not in (\"allow\", \"deny\"):\n"
        "        return \"act\"\n",
        "serve",
    ),
    "pattern_may_begin_with_ten_letters": ("rules", "len(front) <= 9", "len(front) <= 10", "serve"),
    "pattern_may_begin_with_eight_letters": ("rules", "len(front) <= 9", "len(front) <= 8", "serve"),
    "letters_of_a_group_are_one_more": ("rules", "len(front) <= 9", "len(letters) <= 9", "serve"),
    "group_begins_anywhere": (
        "rules",
        "letters = front[1:] if front.startswith(\"#\") else front",
        "letters = front.replace(\"#\", \"\")",
        "serve",
    ),
    "pattern_may_be_any_text": ("rules", "return encode(text) is not None", "return True", "serve"),
}
