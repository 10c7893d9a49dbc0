// A picture in SVG, from a few shapes. Each has a look, a class of the style sheet.
#pragma once

#include <initializer_list>
#include <string>
#include <string_view>
#include <utility>

namespace trace {

class Svg {
 public:
  void rect(const char *look, int left, int top, int width, int height, int round = 0) {
    shape("rect", look, {{"x", left}, {"y", top}, {"width", width}, {"height", height}, {"rx", round}});
  }
  void line(const char *look, int x1, int y1, int x2, int y2) { shape("line", look, {{"x1", x1}, {"y1", y1}, {"x2", x2}, {"y2", y2}}); }
  void circle(const char *look, int x, int y, int radius) { shape("circle", look, {{"cx", x}, {"cy", y}, {"r", radius}}); }
  void path(const char *look, std::string_view steps) { body_ += "<path class=\"" + std::string(look) + "\" d=\"" + std::string(steps) + "\"/>\n"; }
  // The text begins at x, and y is its base line.
  void text(const char *look, int x, int y, std::string_view words) {
    body_ += "<text class=\"" + std::string(look) + "\" x=\"" + std::to_string(x) + "\" y=\"" + std::to_string(y) + "\">" + escaped(words) + "</text>\n";
  }

  // The whole file. The style is taken as it is, and the title as text.
  std::string finished(int width, int height, std::string_view title, std::string_view style) const {
    const std::string across = std::to_string(width), down = std::to_string(height);
    return "<svg xmlns=\"http://www.w3.org/2000/svg\" width=\"" + across + "\" height=\"" + down + "\" viewBox=\"0 0 " + across + " " + down + "\">\n<title>" +
           escaped(title) + "</title>\n" + std::string(style) + body_ + "</svg>\n";
  }

 private:
  void shape(const char *name, const char *look, std::initializer_list<std::pair<const char *, int>> numbers) {
    body_ += "<" + std::string(name) + " class=\"" + look + "\"";
    for (const auto &[key, value] : numbers) body_ += " " + std::string(key) + "=\"" + std::to_string(value) + "\"";
    body_ += "/>\n";
  }

  static std::string escaped(std::string_view words) {
    std::string safe;
    for (char letter : words) {
      if (letter == '&') safe += "&amp;";
      else if (letter == '<') safe += "&lt;";
      else if (letter == '>') safe += "&gt;";
      else safe += letter;
    }
    return safe;
  }

  std::string body_;
};

}  // namespace trace
