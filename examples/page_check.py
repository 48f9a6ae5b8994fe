"""page_check.py PAGE [LINES [NATION]]: looks at a page that ./page wrote, as a reader who has only the page and what ./sheets, ./explain or ./nation print of
the same file, LINES. It is well formed, has no script and no outside resource, headings in order, captions, heads and words for pictures; the rules that
stand above its columns hold of the numbers below them, exactly; the columns add up to what stands at their foot; every rounded number is its exact one
rounded; and every line of LINES is in it. Prints how many numbers were looked at; at the first wrong thing it says so and ends with status 1."""
import re, sys
import xml.etree.ElementTree as tree
from fractions import Fraction as F

HTML = "{http://www.w3.org/1999/xhtml}"
SVG = "{http://www.w3.org/2000/svg}"
looked = 0


def need(holds, *what):
    if not holds:
        sys.exit("page_check: " + " ".join(str(w) for w in what))


def words(element):
    """What is read out of it: not the room for decimals that others of a column have more."""
    def parts(e):
        if e.get("class") != "pad":
            yield e.text or ""
            for inner in e:
                yield from parts(inner)
                yield inner.tail or ""
    return re.sub(r"\s+", " ", "".join(parts(element))).strip()


def number(text):
    """An exact number: digits in brackets repeat without end. None where the text is no number."""
    m = re.fullmatch(r"(\u2212?)([\d,]+)(?:\.(\d*)(?:\((\d+)\))?)?", text)
    if not m:
        return None
    whole, decimals, period = m[2].replace(",", ""), m[3] or "", m[4]
    need("," not in m[2] or re.fullmatch(r"\d{1,3}(,\d{3})+", m[2]), "thousands in", text)
    need(not m[3] or period or not decimals.endswith("0"), "zeros at the end of", text)
    value = F(int(whole + decimals), 10 ** len(decimals))
    if period:
        value += F(int(period), (10 ** len(period) - 1) * 10 ** len(decimals))
    return -value if m[1] else value


def half_even(value):
    return round(value)  # of a Fraction: to nearest, a half to even


def cell(td):
    """The number of a cell, its exact one where it is rounded, and its marks."""
    exact = td.find(HTML + "span[@class='exact']")
    marks = [words(s) for s in td.findall(HTML + "span[@class='mark']")]
    text = words(td)
    for mark in marks:
        text = text[len(mark):].strip()
    if exact is not None:
        text = text[: -len(words(exact))].strip()
    return number(text), number(words(exact)[len("exact "):]) if exact is not None else None, marks


def look_at_form(root):
    need(root.tag == HTML + "html" and root.get("lang") == "en", "html with a lang")
    tags = [e.tag.split("}")[1] for e in root.iter()]
    need(not {"script", "link", "img", "iframe", "object", "embed", "form", "base"} & set(tags), "no script, no outside resource")
    css = root.find(HTML + "head/" + HTML + "style").text
    need("url(" not in css and "@import" not in css, "a style of its own")
    need("prefers-color-scheme:dark" in css and "@page" in css and "A4" in css, "a dark theme and A4")
    ids = [e.get("id") for e in root.iter() if e.get("id")]
    need(len(ids) == len(set(ids)), "an id twice")
    for e in root.iter():
        for key in ("href", "src"):
            target = e.get(key)
            need(target is None or (target.startswith("#") and target[1:] in ids), "a link to", target)
        need(not any(key.startswith("on") for key in e.keys()), "a handler")
        for key in ("aria-labelledby",):
            need(all(i in ids for i in (e.get(key) or "").split()), "a label", e.get(key))
    levels = [int(t[1]) for t in tags if re.fullmatch("h[1-6]", t)]
    need(levels[0] == 1 and levels.count(1) == 1, "one h1, and first")
    need(all(b <= a + 1 for a, b in zip(levels, levels[1:])), "headings in order")
    need(tags.count("main") == 1 and tags.count("title") >= 1, "one main, a title")
    for box in root.iter(HTML + "table"):
        need(box[0].tag == HTML + "caption" and words(box[0]), "a caption")
        need(all(th.get("scope") for th in box.iter(HTML + "th")), "scopes in", words(box[0]))
        need(box.find(HTML + "thead") is not None, "a head in", words(box[0]))
    for svg in root.iter(SVG + "svg"):
        if svg.get("aria-hidden") != "true":
            need(svg.get("role") == "img" and svg.find(SVG + "title") is not None and words(svg.find(SVG + "desc")), "words for a picture")


def heads(table):
    """The columns: letter or None, the title, and the rule."""
    found = []
    for th in table.find(HTML + "thead/" + HTML + "tr"):
        letter, rule = th.find(HTML + "span[@class='letter']"), th.find(HTML + "span[@class='rule']")
        found.append((words(letter) if letter is not None else None, words(th), words(rule) if rule is not None else ""))
    return found


def lines_of(table):
    """The lines of a body: the words of their heads, and their cells."""
    above = None
    for tr in table.iter(HTML + "tr"):
        ths, tds = tr.findall(HTML + "th"), tr.findall(HTML + "td")
        if not tds:
            continue
        if ths and ths[0].get("rowspan"):
            above = words(ths[0])
        yield ([above] if above and len(ths) == 1 and not ths[0].get("colspan") and table.find(".//" + HTML + "th[@rowspan]") is not None else []) + \
            [words(th) for th in ths], tds


def rule_for(rule, names):
    """Of a rule with two cases the one for this line: living and dead, or C and N."""
    if rule.startswith("living J"):
        return re.search(("living" if "Living" in names else "dead") + r" (. = [^,]*)", rule)[1]
    m = re.fullmatch(r"(. = )(.*) for C, (.*) for N", rule)
    if m:
        return m[1] + m[3 if any(n in ("N\u2082O", "NO\u2093") for n in names) else 2]
    return rule


def worked_out(rule, letters):
    """What a rule comes to, or None where it names what is not there."""
    m = re.fullmatch(r"\u2212?[A-Z](?: [\u00d7+\u2212] (?:[A-Z]|44/12))*", rule)
    if not m or any(c not in letters for c in re.findall("[A-Z]", rule)):
        return None
    parts = rule.split(" ")
    value = letters[parts[0]]
    for sign, part in zip(parts[1::2], parts[2::2]):
        other = F(44, 12) if part == "44/12" else letters[part]
        value = value * other if sign == "\u00d7" else value + other if sign == "+" else value - other
    return value


def look_at_line(columns, names, tds, letters):
    """Each cell against its rule; of a rounded one the exact number is. The values that it has, by column."""
    global looked
    values, at = [], len(columns) - len(tds)
    for (letter, title, rule), td in zip(columns[at:], tds):
        value, exact, marks = cell(td)
        ratio = re.fullmatch(r"(\d+)/(\d+)", words(td))
        if ratio:
            value = F(int(ratio[1]), int(ratio[2]))
        values.append((value, exact))
        if value is None:
            continue
        looked += 1
        if exact is not None:
            need(half_even(exact) == value, title, value, "is not", exact, "rounded")
        if letter:
            letters[letter] = value if exact is None else exact
    for (letter, title, rule), (value, exact), td in zip(columns[at:], values, tds):
        m = re.fullmatch(r"([A-Z]) = (.*)", rule_for(rule, names))
        if value is None or not m:
            continue
        due = worked_out(m[2], letters)
        if due is None:
            need(False, "a rule that names what is not there:", rule, sorted(letters))
        tonnes = 1000 if re.search(r"\(t (CO|of gas)", title) else 1  # the other columns are in kt
        if "thinner" in cell(td)[2]:
            need(due < 0 and value == 0, title, "thinner")
        else:
            need((exact if exact is not None else value) == due * tonnes, title, names, value, "is not", due)
    return values


def look_at_sums(table, columns, bodies):
    """The foot of each column is the sum of what stands above it, where something does."""
    for names, tds in lines_of(table.find(HTML + "tfoot")):
        gas = names[0][len("Total "):] if names[0].startswith("Total ") else None
        total, exact, _ = cell(tds[-1])
        if gas:  # a line for each gas: its last cell
            above = [values[-1][0] for line, values in bodies if gas in line]
            need(sum(above) == exact and half_even(exact) == total, "total of", gas)
            continue
        for i in range(1, len(tds) + 1):
            foot, above = cell(tds[-i])[0], [values[-i][0] for _, values in bodies if len(values) >= i and values[-i][0] is not None]
            if foot is not None and above:
                need(sum(above) == foot, "foot of", columns[-i][1], sum(above), foot)
        feet = {column[0]: cell(td)[0] for column, td in zip(columns[::-1], tds[::-1])}
        if feet.get("M") is not None and "L" in feet:  # of worksheet 5-1, which stand at the foot alone; in 5-2 there is no L there
            need(feet["L"] is None or feet["M"] == feet["K"] - feet["L"], "M, which is K less L")


def look_at_sheets(root):
    """The worksheets, section by section; letters are known by row from the sheets before it in the same section."""
    for section in root.iter(HTML + "section"):
        if not re.match(r"s\d", section.get("aria-labelledby")):
            continue
        known, single = {}, {}
        for table in section.iter(HTML + "table"):
            columns, bodies = heads(table), []
            for body in table.findall(HTML + "tbody"):
                for names, tds in lines_of(body):
                    of = names[0] if names else None
                    letters = dict(known.get(of, single) if of else single)
                    values = look_at_line(columns, names, tds, letters)
                    known[of] = letters
                    bodies.append((names, values))
            if table.find(HTML + "tfoot") is not None:
                look_at_sums(table, columns, bodies)
                for names, tds in lines_of(table.find(HTML + "tfoot")):
                    for (letter, _, _), td in zip(columns[::-1], tds[::-1]):
                        if letter and cell(td)[0] is not None:
                            single[letter] = cell(td)[0]
            elif None in known:
                single.update(known[None])
            if section.get("aria-labelledby") == "s5-2" and "sheet 4" in words(table[0]):
                single = {"A": single.get("R", F(0)), "B": single.get("I", F(0))}


def look_at_figures(root, lines):
    """Every line of ./sheets, its unit by its exponent, and the exact numbers of the rounded ones."""
    global looked
    rows = {}
    for tr in root.find(".//" + HTML + "h2[@id='figures']/..").iter(HTML + "tr"):
        tds = tr.findall(HTML + "td")
        if tds:
            rows[words(tr[0])] = [words(td) for td in tds]
    need(list(rows) == [name for name, _ in lines], "the names of the figures")
    for name, value in lines:
        printed, unit, shown, _ = rows[name]
        power = re.match(r"10\u2212(\d+) ", unit)
        need(printed == value, name, printed, value)
        need(number(shown.split(" ")[0]) == F(int(value), 10 ** int(power[1] if power else 0)), name, shown)
        looked += 1
    for tr in root.find(".//" + HTML + "h2[@id='glance']/..").iter(HTML + "tr"):
        tds = [words(td) for td in tr.findall(HTML + "td")]
        if tds:
            need(half_even(number(tds[3])) == number(tds[2]), tds)
            need(str(number(tds[2])) in [value for _, value in lines], tds)


def look_at_refusal(root, lines):
    rows = [[words(c) for c in tr] for table in root.iter(HTML + "table") for tr in table.iter(HTML + "tr")]
    for name, value in lines:
        need([name, value] in rows, "the line", name, value)
    n, place = lines[0][1].split(" ")
    need(words(root.find(".//" + HTML + "h2[@id='why']")).startswith("Number %s: " % n), "the heading of number", n)
    need("number %s, place %s" % (n, place) in words(root.find(".//" + HTML + "p[@class='stop']")), "number and place")
    need("Do" in [words(s) for s in root.iter(HTML + "strong")], "what to do")


def look_at_nation(root, lines):
    """Every line of ./nation: totals at the foot, refused returns by links to where they are explained."""
    global looked
    shown, text = {}, words(root)
    for table in root.iter(HTML + "table"):
        columns = heads(table)
        if table.find(HTML + "tfoot") is None:
            continue
        bodies = [(names, [cell(td)[:2] for td in tds]) for names, tds in lines_of(table.find(HTML + "tbody")) if len(tds) > 1]
        for names, tds in lines_of(table.find(HTML + "tfoot")):
            for i, ((letter, title, rule), td) in enumerate(zip(columns[1:], tds)):
                value, exact, _ = cell(td)
                above = sum((values[i][0] for _, values in bodies), F(0))
                need(half_even(exact) == value if rule == "rounded" else above == value, "the national", letter)
                shown[letter] = (value, title)
                looked += 1 + len(bodies)
    for name, value in lines:
        if name == "return":
            at, _, number_, place = value.split(" ")
            need(root.find(".//" + HTML + "a[@href='#return-%s']" % at) is not None, "a link of return", at)
            need("Return %s: number %s, " % (at, number_) in text and "refused: number %s, place %s" % (number_, place) in text, "return", at)
        elif name in ("accepted", "refused"):
            need("%s: %s" % (name, value) in text, name)
        elif name == "stopped":
            need("stopped at return %s" % value.split(" ")[0] in text, value)
        else:
            value_, title = shown[name]
            places = {"E": 7, "K": 4, "L": 6, "M": 6, "P": 9, "onsite": 12, "offsite": 12, "decay": 12}.get(name, 9 if "kt dm" in title else 0)
            need(value_ == F(int(value), 10 ** places), "the national", name, value_, value)


def main():
    page = open(sys.argv[1], encoding="utf-8").read()
    need(page.startswith("<!DOCTYPE html>\n"), "a doctype")
    root = tree.fromstring(page)
    look_at_form(root)
    look_at_sheets(root)
    if len(sys.argv) > 2:
        lines = [line.split(" ", 1) for line in open(sys.argv[2], encoding="utf-8").read().splitlines()]
        of = "refusal" if lines[0][0] == "refused" and len(sys.argv) == 3 else "nation" if len(sys.argv) > 3 else "figures"
        {"refusal": look_at_refusal, "nation": look_at_nation, "figures": look_at_figures}[of](root, lines)
    print(looked, "numbers")


main()
