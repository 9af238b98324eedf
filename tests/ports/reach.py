"""Tests of who reaches what on the page: by keys alone, and by the names that a screen reader says."""
TABS = ("summary", "addresses", "symbols", "modules", "map")


def by_keys(note, page):
    """Tabs, a trace, lists, the table of modules and the map, without a mouse."""
    from selenium.webdriver.common.keys import Keys  # pylint: disable=import-outside-toplevel; it isn't everywhere

    browser = page.browser

    def press(*keys):
        browser.switch_to.active_element.send_keys("".join(keys))

    page.run("choose(at('tab-summary'), true)")
    for key, tab in ((Keys.ARROW_RIGHT, "addresses"), (Keys.END, "map"), (Keys.ARROW_RIGHT, "summary"), (Keys.ARROW_LEFT, "map"), (Keys.HOME, "summary"), (Keys.ARROW_RIGHT, "addresses")):
        press(key)
        note(f"page: keys to {tab}", page.run("return document.activeElement.id") == f"tab-{tab}" and page.run(f"return !at('{tab}').hidden"))
    page.run("at('trace').value = ''; document.body.dataset.asked = ''; at('trace').focus()")
    browser.find_element("id", "trace").send_keys("0x1108", Keys.CONTROL, Keys.ENTER)
    page.wait("document.body.dataset.asked === 'yes'")
    note("page: keys resolve", "nested" in page.run("return at('frames').innerText"))
    page.run("choose(at('tab-symbols')); at('form').value = 'all'; at('find').value = ''; search()")
    page.wait("document.querySelectorAll('#list .item').length > 9")
    browser.find_element("id", "list").send_keys(Keys.END)
    page.wait("at('list').scrollTop > 0")
    note("page: keys scroll a list", page.run("return at('list').scrollTop") > 0)
    page.run("choose(at('tab-map'))")
    page.run("document.querySelector('#tiles button').focus()")
    press(Keys.ARROW_RIGHT)
    note("page: keys on the map", page.run("return [...at('tiles').children].indexOf(document.activeElement)") == 1)
    press(Keys.ENTER)
    page.wait("!at('oneModule').hidden && document.activeElement === at('oneName')")
    note("page: keys open a module", page.run("return at('tab-modules').getAttribute('aria-selected')") == "true")
    browser.find_element("id", "back").send_keys(Keys.ENTER)
    note("page: keys back to all modules", page.run("return !at('allModules').hidden"))


def by_names(note, page):
    """Whatever takes the focus has an accessible name, and each list is a table with its rows."""
    for tab in TABS:
        page.run(f"choose(at('tab-{tab}'))")
        nodes = page.browser.execute_cdp_cmd("Accessibility.getFullAXTree", {})["nodes"]
        found = [it for it in nodes if not it.get("ignored")]
        focusable = [it for it in found if any(each["name"] == "focusable" and each["value"].get("value") for each in it.get("properties", []))]
        nameless = [it["role"]["value"] for it in focusable if not it.get("name", {}).get("value") and it["role"]["value"] != "RootWebArea"]
        note(f"page: names in {tab}", len(focusable) > 5 and not nameless, nameless)
        if tab == "symbols":
            roles = {it["role"]["value"] for it in found}
            note("page: a table of symbols", {"table", "row", "columnheader", "cell"} <= roles, roles)
    note("page: its language, and one head", page.run("return document.documentElement.lang === 'en' && document.querySelectorAll('h1').length === 1"))


def by_dropping(note, page):
    """A file that is dropped is opened."""
    page.run("""
        const data = new DataTransfer();
        data.items.add(new File([bytesOf(at("bytes").textContent)], "dropped.pdb"));
        document.body.dataset.state = "";
        at("drop").dispatchEvent(new DragEvent("drop", { bubbles: true, cancelable: true, dataTransfer: data }));
    """)
    page.wait("document.body.dataset.state === 'ready'")
    note("page: a file that is dropped", "dropped.pdb" in page.run("return at('status').textContent"))


def tests(note, page, file):
    page.feed(file)
    by_keys(note, page)
    by_names(note, page)
    by_dropping(note, page)
