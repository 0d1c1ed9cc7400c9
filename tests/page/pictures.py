"""The pictures of the page for docs/: what a visitor sees first of each answer. They have no date in them."""

# The name of each picture, the example, what stands at its top, and its height.
PICTURES = (
    ('page-same', 0, 'h1', 800),
    ('page-difference', 1, '[data-part="verdict"]', 1000),
    ('page-faults', 2, '#result', 900),
    ('page-ballots', 1, '.ballot > :nth-child(4)', 1000),
)



def run(session, folder):
    for name, example, top, height in PICTURES:
        session.fresh()
        session.browser.script("document.querySelectorAll('#examples button')[arguments[0]].click()", example)
        session.verdict()
        if name == 'page-ballots':
            ballot(session)
        session.browser.resize(1000, height)
        session.browser.script('scrollTo(0, document.querySelector(arguments[0]).getBoundingClientRect().top + scrollY - 20)', top)
        picture = session.browser.picture()
        session.said('the picture ' + name, '' if 5_000 < len(picture) < 200_000 else '%d bytes' % len(picture))
        (folder / (name + '.png')).write_bytes(picture)
        session.browser.scheme(False)


def ballot(session):
    """The ballot whose selections have changed places."""
    session.browser.script("document.getElementById('ballots').open = true")
    session.browser.until("return document.querySelectorAll('.style').length >= 4")
    session.browser.script("document.querySelectorAll('.style')[1].open = true")
    session.browser.until("return document.querySelector('.ballot') !== null")
