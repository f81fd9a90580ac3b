#!/bin/sh
# Draws every picture of examples in docs/ anew. Arguments are passed to draw.py, as --program COMMAND.
set -eu
cd "$(dirname "$0")/../examples"

draw() {
    picture=$1
    shift
    ../docs/draw.py "$@" > "../docs/$picture.svg.new" || { rm "../docs/$picture.svg.new"; exit 1; }
    mv "../docs/$picture.svg.new" "../docs/$picture.svg"
}

draw polygon_with_hole "$@" polygon_with_hole.json polygon_with_hole_shrunk.json
draw outline_pieces "$@" --pieces --panel 560 l_shape_bevels.json
draw joins "$@" join_bevel.json join_clipped.json join_peak.json join_round.json
draw strokes "$@" cap_butt.json cap_square.json cap_round.json cap_custom.json
draw halves "$@" kerb_left.json kerb_right.json kerb_both.json
draw variable_strokes "$@" --own-scale brush_stroke.json tapered_track.json
draw map_with_hole "$@" --panel 640 map_with_hole.json
draw pocket "$@" --panel 640 --again pocket.json
draw pen_stroke "$@" pen_stroke.json
draw board_clearance "$@" --panel 640 --over board_tracks.json board_pads.json
draw pocket_with_islands "$@" --panel 640 cutting/pocket_with_islands.json
draw net_clearance "$@" --panel 640 cutting/net_clearance.json
draw land_less_lakes "$@" --panel 640 cutting/land_less_lakes.json
