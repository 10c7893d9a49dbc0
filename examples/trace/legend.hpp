// The looks of the picture: its style, the marks on a bar, and the legend that explains them.
#pragma once

#include "svg.hpp"

#include <dvs.hpp>

namespace trace {

// What is said of a view by its colour is said by its outline, its pattern or its mark too.
inline constexpr const char *kStyle = R"svg(<style>
text { font-family: "DejaVu Sans Mono", Menlo, Consolas, "Liberation Mono", monospace; font-size: 11px; fill: #1c2733; }
.title { font-size: 16px; font-weight: bold; }
.quiet { fill: #5d6b7a; }
.name { font-weight: bold; }
.white { fill: #ffffff; font-weight: bold; }
.page { fill: #ffffff; }
.row { fill: #f4f6f8; }
.row-asked { fill: #fff3d6; }
.asked { fill: #d97706; }
.axis { stroke: #9aa7b4; }
.pole { stroke: #9aa7b4; }
.pole-crossed { stroke: #d97706; stroke-width: 1.5; }
.pole-held { stroke: #d97706; stroke-width: 3; }
.flag { fill: #ffffff; stroke: #9aa7b4; }
.flag-crossed { fill: #fffaf0; stroke: #d97706; stroke-width: 1.5; }
.flag-held { fill: #fff3d6; stroke: #d97706; stroke-width: 3; }
.halo-crossed { fill: none; stroke: #d97706; stroke-width: 1.5; }
.halo-held { fill: none; stroke: #d97706; stroke-width: 3.5; }
.made { fill: #ffffff; stroke: #7b8896; stroke-dasharray: 3 2; }
.joined { fill: #ffffff; stroke: #33475b; }
.attempted { fill: #c9defa; stroke: #33475b; }
.registered { fill: url(#hatch); stroke: #33475b; }
.settled { fill: #1f5fae; stroke: #33475b; }
.mark { fill: #ffffff; stroke: #1c2733; stroke-width: 1.5; }
.tick { fill: none; stroke: #1c2733; stroke-width: 2.5; }
.tick-under { fill: none; stroke: #ffffff; stroke-width: 5; }
.dot { fill: #1c2733; stroke: #ffffff; stroke-width: 1.5; }
</style>
<defs><pattern id="hatch" width="6" height="6" patternUnits="userSpaceOnUse" patternTransform="rotate(45)">
<rect width="6" height="6" fill="#c9defa"/><rect width="2" height="6" fill="#1f5fae"/></pattern></defs>
)svg";

enum class Mark { joined, attempted, registered, settled };

// The mark on a bar that begins at this height.
void draw_mark(Svg &svg, Mark mark, int x, int top);

constexpr int kLegendWidth = 720, kLegendHeight = 148;

// Below the rows, which end here.
void draw_legend(Svg &svg, dvs::Set set, int bottom);

}  // namespace trace
