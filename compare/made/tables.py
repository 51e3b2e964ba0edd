"""Made-up tables, with spans of all kinds."""

# Values of spans: numbers as people write them, and such as the rules for parsing non-negative integers are read on.
SPANS = ["1", "2", "2", "3", "4", "0", "-0", "+2", " 3", "2x", "x", "", "-1", "30", "1001", "65535", "99999999999", "\t2", "2.5", "00", "०"]
# Columns before the rows, and such as stand where they don't count.
COLUMNS = [
    "<colgroup{span}>", "<colgroup{span}></colgroup>x", "<col{span}>", "<col{span}><col>", "<colgroup span=3><col{span}><col>", "<caption>c</caption><colgroup{span}>",
    "<colgroup{span}><!-- c --> ", "<colgroup{span}><template><col span=2></template>", "<colgroup><col{span}><template></template></colgroup><col>", "<tbody></tbody><col{span}>",
    "<tr><td>x<colgroup{span}><col>",
]  # fmt: skip


def table(chance):
    parts = ["<table>"]
    for _ in range(chance.choice([0, 0, 0, 1, 1, 2])):
        span = f' span="{chance.choice(SPANS)}"' if chance.random() < 0.35 else ""
        parts.append(chance.choice(COLUMNS).format(span=span))
    for _ in range(chance.randint(1, 4)):
        group = chance.choice(["tbody", "tbody", "tbody", "thead", "tfoot", "tfoot", ""])
        if group:
            parts.append(f"<{group}>")
        for _ in range(chance.choice([0, 1, 2, 2, 3, 4])):
            parts.append("<tr>")
            for _ in range(chance.choice([0, 1, 2, 3, 3, 4, 5])):
                spans = "".join(f' {key}="{chance.choice(SPANS)}"' for key in ("colspan", "rowspan") if chance.random() < 0.35)
                parts.append(f"<{chance.choice(['td', 'td', 'th'])}{spans}>x")
                if chance.random() < 0.03:
                    parts.append("<table><tr><td>y</table>")
    return "".join(parts) + "</table>"
