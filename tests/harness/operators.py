"""Operators as a keeper writes them into the proxies' configurations. Not run by itself."""

# what a configuration has for its one operator, and what it has in place of that: some first line, and a line for each,
# or for each in a group
ALONE = (
    ("    user anna password @PASSWORD@\n", "", "    user {0} password @PASSWORD@\n", False),
    (
        "    http-request set-var-fmt(txn.may) look,steer,approve,hold if { http_auth_user anna }\n",
        "",
        "    http-request set-var-fmt(txn.may) {1} if {{ http_auth_user {0} }}\n",
        True,
    ),
    ("    default look,steer,approve,hold;\n", '    default "";\n', "    {0} {1};\n", True),
)


def with_operators(text, operators):
    """A configuration with these operators, each with his groups, in place of the one that it comes with,
    if it asks for operators."""
    changed = text
    for alone, first, line, grouped in ALONE if operators else ():
        changed = changed.replace(
            alone,
            first + "".join(line.format(*it) for it in operators.items() if it[1] or not grouped),
        )
    assert (
        changed != text or not operators or not ("userlist" in text or "auth_basic" in text)
    ), "the configuration has its operators otherwise"
    return changed
