"""The parts of the tests, in their order: those of the browser, and those that Node can do without one (scripts.py)."""

import browser
import of_access
import of_asking
import of_controls
import of_files
import of_firefox
import of_gallery
import of_hostile
import of_pairs
import of_pictures
import of_play
import of_play_access
import of_sizes
import of_states
import of_ways
import of_widths
import scripts

ALL = {
    "files": of_files.part,
    "states": of_states.part,
    "controls": of_controls.part,
    "access": of_access.part,
    "asking": of_asking.part,
    "pictures": of_pictures.part,
    "pairs": of_pairs.part,
    "play": of_play.part,
    "play_access": of_play_access.part,
    "ways": of_ways.part,
    **scripts.ALL,
    "gallery": of_gallery.part,
    "hostile": of_hostile.part,
    "sizes": of_sizes.part,
    "widths": of_widths.part,
    "firefox": of_firefox.part,
}
opened = browser.opened
