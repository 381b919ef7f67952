"""Pages of a load in three dimensions: a side view, then a plan for each height at which boxes stand."""
from dataclasses import replace

from . import paper
from .loading import supports
from .paper import MARGIN, shown
from .pictures import KEY_WIDTH, Area, Key, Panel, Tile, draw_key, draw_panel, scale_bar, size_words

GRIDS = ((1, 1), (1, 2), (2, 1), (1, 3), (3, 1), (2, 2), (1, 4), (4, 1), (3, 2), (2, 3))
MOST_PANELS = 6
HANGS_BELOW = 0.7


def side_panel(placements, container, held):
    """The load as seen from its first side: length to the right, height upwards, near boxes in front.

    Boxes that are partly covered have no label.
    """
    tiles = [tile_of(it, 0, 2, held) for it in sorted(placements, key=lambda it: -it.corner[1])]
    tiles = [replace(it, is_silent=any(is_covered(it, other) for other in tiles[at + 1:]))
             for at, it in enumerate(tiles)]
    return Panel(container[0], container[2], tuple(tiles), "Side view")


def is_covered(tile, other):
    """Whether two tiles overlap."""
    return (tile.x < other.x + other.width and other.x < tile.x + tile.width
            and tile.y < other.y + other.height and other.y < tile.y + tile.height)


def layer_panels(placements, container, held):
    """A plan for each height at which a box stands. Boxes that reach through it are grey."""
    panels = []
    for height in sorted({it.corner[2] for it in placements}):
        reach = [it for it in placements if it.corner[2] < height < it.corner[2] + it.sides[2]]
        stand = [it for it in placements if it.corner[2] == height]
        tiles = [tile_of(it, 0, 1, held, True) for it in reach] + [tile_of(it, 0, 1, held) for it in stand]
        what = "on the floor" if height == 0 else f"at height {shown(height)}"
        panels.append(Panel(container[0], container[1], tuple(tiles), f"Boxes that stand {what}"))
    return panels


def tile_of(placement, right, up, held, is_faded=False):
    """A box as a tile in the plane of two dimensions, with its support where that isn't whole."""
    part = held[placement.box]
    note = "" if part >= 1 or is_faded else f"held {int(part * 100)} %"
    return Tile(placement.box, placement.name, placement.corner[right], placement.corner[up],
                placement.sides[right], placement.sides[up], size_words(placement.sides, placement.turned),
                note, is_faded, part < HANGS_BELOW and not is_faded)


def choose_grid(panels, width):
    """Columns and rows for the panels of a page: the grid that gives them the greatest scale."""
    wanted = min(len(panels), 4)
    grids = [it for it in GRIDS if it[0] * it[1] >= wanted]
    return max(grids, key=lambda it: (round(grid_scale(panels, it, width), 4), it[0] * it[1]))


def cell_of(grid, at, width):
    """The area of a panel in a grid of this width."""
    across = width / grid[0]
    height = (paper.HEIGHT - 28 - 16) / grid[1]
    left = MARGIN + (at % grid[0]) * across
    top = 28 + (at // grid[0]) * height
    return Area(left + 6, top + 5, across - 10, height - 12)


def grid_scale(panels, grid, width):
    """The scale with which all panels fit the cells of a grid."""
    cell = cell_of(grid, 0, width)
    return min(min(cell.width / float(it.width), cell.height / float(it.height)) for it in panels)


def load_pages(placements, container, title, subtitle, footer, unit="", first_page=1):
    """The SVG pages of one loaded container, all panels to one scale."""
    held = supports(placements)
    panels = [side_panel(placements, container, held), *layer_panels(placements, container, held)]
    key, width = Key(), paper.WIDTH - 2 * MARGIN
    bodies = draw_bodies(panels, key, width, first_page)
    if key.numbers:
        key = Key(key.colours)
        bodies = draw_bodies(panels, key, width - KEY_WIDTH, first_page)
    drawn = []
    for at, (body, scale) in enumerate(bodies):
        more = f" (page {at + 1} of {len(bodies)})" if len(bodies) > 1 else ""
        head = paper.heading(title + more, subtitle, footer)
        listed = draw_key(key, paper.WIDTH - MARGIN - KEY_WIDTH + 6) if key.numbers else ""
        drawn.append(paper.page(head + body + listed + scale_bar(scale, unit) + mark_words(placements, held),
                                title + more, first_page + at))
    return drawn


def mark_words(placements, held):
    """What a red line means, where there is one."""
    if all(held[it.box] >= HANGS_BELOW for it in placements):
        return ""
    words = f"Red: less than {HANGS_BELOW * 100:.0f} % of the bottom is held."
    return paper.text(paper.WIDTH - MARGIN, 16, words, 3.2, "end", paper.ALARM)


def draw_bodies(panels, key, width, first_page):
    """For each page the panels drawn, and their scale."""
    grid = choose_grid(panels, width)
    each, scale = min(grid[0] * grid[1], MOST_PANELS), grid_scale(panels, grid, width)
    bodies = []
    for at in range(0, len(panels), each):
        parts = []
        for place, panel in enumerate(panels[at:at + each]):
            cell = cell_of(grid, place, width)
            area = Area(cell.left, cell.top, float(panel.width) * scale, float(panel.height) * scale)
            parts.append(draw_panel(panel, area, key, first_page + at // each)[0])
        bodies.append(("".join(parts), scale))
    return bodies
