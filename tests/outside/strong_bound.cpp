// A plain program beside `adbank bound`, for BRR and SPU-ADPCM: a bound under the error of every list of blocks, and encoders
// whose errors no bound may pass. It shares nothing with the program; all advice is in floating point, and what rests on it
// is summed in whole numbers, so that a bound holds whatever the advice is.
//
//   strong_bound brr|spu bound ROWS              prints the bound; at most ROWS rows are visited in one search
//   strong_bound brr|spu encode PREFIXES PATHS   prints an error: so many lists are kept from block to block, and so many
//                                                paths through the codes of a block
//
// The targets are whole numbers on standard input; a last block is filled with zeros.
#include <algorithm>
#include <cmath>
#include <cstdint>
#include <cstdio>
#include <cstdlib>
#include <cstring>
#include <string>
#include <vector>

using Int = int64_t;
using Wide = __int128;

static Int floor_div(Int x, Int y) { return x / y - (x % y != 0 && x < 0); }
static Int ceil_div(Wide x, Int y) { return Int(x / y + (x % y > 0)); }

// d * result = d * (sample + wraps) + a * last + b * older + bias - rounding, where the rounding is 0 to `errs`
struct Filter {
  Int d, a, b, bias, errs;
};

struct Format {
  int samples, shifts;
  Int scale, low, high;
  bool wraps;
  std::vector<Filter> filters;
  Int level[14][16];  // by shift, ascending
  Int ends[2];        // what a clamp at the upper end and at the lower end gives

  static Format brr() {
    Format f{16, 14, 2, -16384, 16383, true, {{1, 0, 0, 0, 0}, {16, 15, 0, 0, 15}, {32, 61, -30, 0, 61}, {64, 115, -52, 0, 123}}, {}, {-1, 0}};
    for (int shift = 0; shift < 14; shift++)
      for (Int n = -8; n < 8; n++) f.level[shift][n + 8] = shift == 13 ? (n < 0 ? -2048 : 0) : floor_div(n * (1 << shift), 2);
    return f;
  }
  static Format spu() {
    Format f{28, 13, 1, -32768, 32767, false, {{1, 0, 0, 0, 0}, {64, 60, 0, 32, 63}, {64, 115, -52, 32, 63}, {64, 98, -55, 32, 63}, {64, 122, -60, 32, 63}}, {}, {32767, -32768}};
    for (int shift = 0; shift < 13; shift++)
      for (Int n = -8; n < 8; n++) f.level[shift][n + 8] = floor_div(n * 4096, 1 << shift);
    return f;
  }
  Int predicted(int filter, Int last, Int older) const {
    if (!wraps) return filter ? (filters[filter].a * last + filters[filter].b * older + 32) >> 6 : 0;
    switch (filter) {
      case 0: return 0;
      case 1: return last + (-last >> 4);
      case 2: return 2 * last + (-3 * last >> 5) - older + (older >> 4);
      default: return 2 * last + (-13 * last >> 6) - older + (3 * older >> 4);
    }
  }
  Int finished(Int x) const {
    x = std::clamp<Int>(x, -32768, 32767);
    return wraps ? ((x + 16384) & 32767) - 16384 : x;
  }
  Int error(Int output, Int target) const { return (scale * output - target) * (scale * output - target); }
};

// The search under one head, from one place on to the block's end.
struct HeadSearch {
  static constexpr int MOST = 28;
  static constexpr Int Q = 64;
  const Format& format;
  int number;  // of the filter
  const Filter& filter;
  const Int *level, *target;
  Int weight_[MOST + 2], *weight = weight_ + 2;
  Int rest[MOST + 1] = {};  // under what the places from each on cost, whatever was before
  long rows, nodes = 0;
  Int least = 0;

  // The root's rows: the triangular solution of the advice, and what is known of places that were clamped.
  int root = 0;
  double damping = 0;
  double one[MOST + 2], two[MOST + 2], pivot[MOST + 2], middle[MOST + 2], share[MOST + 2];
  Int lower[MOST + 2], upper[MOST + 2], known_cost = 0;
  bool known_[MOST + 4], *known = known_ + 2;
  Int error_[MOST + 4], *error = error_ + 2, factor_[MOST + 6], *factor = factor_ + 2;

  HeadSearch(const Format& f, int shift, int number, const Int* target, bool leaving, long rows)
      : format(f), number(number), filter(f.filters[number]), level(f.level[shift]), target(target), rows(rows) {
    for (int j = -2; j < f.samples; j++) weight[j] = j < 0 || (leaving && j >= f.samples - 2) ? 1 : 2;
  }
  int samples() const { return format.samples; }
  int taps() const { return filter.b ? 2 : 1; }
  Int cost(Int output, int j) const { return weight[j] * format.error(output, target[j]); }
  Int nearest_output(int j, Int off) const {
    return std::clamp(floor_div(target[j] + format.scale / 2, format.scale) + off, format.low, format.high);
  }
  // What the codes cost that are taken one by one, each the nearest.
  Int greedy(int j, Int last, Int older) const {
    Int sum = 0;
    for (; j < samples(); j++) {
      Int predicted = format.predicted(number, last, older), best = INT64_MAX, output = 0;
      for (int code = 0; code < 16; code++) {
        Int y = format.finished(predicted + level[code]);
        if (cost(y, j) < best) best = cost(y, j), output = y;
      }
      sum += best, older = last, last = output;
    }
    return sum;
  }

  // States that are entered: each is stepped as the decoder does.
  void step_on(int j, Int last, Int older, Int so_far) {
    if (j == samples()) { least = std::min(least, so_far); return; }
    if (++nodes > rows) { least = std::min(least, so_far + rest[j]); return; }
    Int predicted = format.predicted(number, last, older);
    struct Next { Int cost, output; } next[16];
    for (int code = 0; code < 16; code++) {
      Int y = format.finished(predicted + level[code]);
      next[code] = {cost(y, j), y};
    }
    std::stable_sort(next, next + 16, [](const Next& x, const Next& y) { return x.cost < y.cost; });
    for (const Next& n : next) {
      if (so_far + n.cost + rest[j + 1] >= least) break;
      step_on(j + 1, n.output, last, so_far + n.cost);
    }
  }
  // Outputs of a place from its target outward, while they cost less than the least so far.
  template <class Each>
  void outward(int j, Int before, Each each) {
    Int middle = nearest_output(j, 0);
    for (Int y = middle; y <= format.high && before + cost(y, j) < least; y++) each(y, before + cost(y, j));
    for (Int y = middle - 1; y >= format.low && before + cost(y, j) < least; y--) each(y, before + cost(y, j));
  }
  void enter_states(int j) {
    outward(j - 1, rest[j], [&](Int last, Int first) {
      if (taps() == 1) { step_on(j, last, 0, first - rest[j]); return; }
      outward(j - 2, first, [&](Int older, Int both) { step_on(j, last, older, both - rest[j]); });
    });
  }

  // Advice: factors of the rows, from the nearest point of their boxes.
  double free_share(int j) const { return known[j] ? 0 : 1.0 / weight[j]; }
  void weigh_row(int j) {
    if (known[j]) { one[j] = two[j] = 0, pivot[j] = 1e30; return; }
    double d = filter.d, a = filter.a, b = filter.b;
    double own = d * d * free_share(j) + a * a * free_share(j - 1) + b * b * free_share(j - 2) + damping * d * d / 2;
    double first = j > root && !known[j - 1] ? -a * d * free_share(j - 1) + b * a * free_share(j - 2) : 0;
    double second = j > root + 1 && !known[j - 2] ? -b * d * free_share(j - 2) : 0;
    two[j] = j > root + 1 ? second / pivot[j - 2] : 0;
    one[j] = j > root ? (first - (j > root + 1 ? two[j] * pivot[j - 2] * one[j - 1] : 0)) / pivot[j - 1] : 0;
    double less = (j > root ? one[j] * one[j] * pivot[j - 1] : 0) + (j > root + 1 ? two[j] * two[j] * pivot[j - 2] : 0);
    pivot[j] = std::max(1e-6, own - less);
  }
  double carried(int j) const {
    double known_part = (known[j - 1] ? double(filter.a) * error[j - 1] : 0) + (known[j - 2] ? double(filter.b) * error[j - 2] : 0);
    return known_part - (j > root ? one[j] * middle[j - 1] : 0) - (j > root + 1 ? two[j] * middle[j - 2] : 0);
  }
  Int owed(int j) const { return filter.d * target[j] - filter.a * target[j - 1] - filter.b * target[j - 2]; }
  void set_row(int j, Int sample) {
    upper[j] = format.scale * (filter.d * sample + filter.bias) - owed(j);
    lower[j] = upper[j] - format.scale * filter.errs;
    middle[j] = (upper[j] + lower[j]) * 0.5 + carried(j);
    share[j] = (j > root ? share[j - 1] : 0) + middle[j] * middle[j] / pivot[j];
  }
  void advise(int j, double w, double d) {
    double x[MOST + 4] = {};
    for (int l = j; l >= root; l--) {
      x[l] = known[l] ? 0 : (l == j ? w / d : middle[l] / pivot[l]) - (l + 1 <= j ? one[l + 1] * x[l + 1] : 0) - (l + 2 <= j ? two[l + 2] * x[l + 2] : 0);
      factor[l] = llround(x[l] * Q);
    }
  }
  // The dual: under what the rows up to place j cost, for any factors. An open end has a row but no cost of its own.
  Int dual_of(int j, bool open, Int low, Int high) {
    Wide sum = 0;
    factor[j + 1] = factor[j + 2] = 0;
    for (int l = root; l <= j; l++) {
      bool end = open && l == j;
      sum += Wide(2 * Q) * std::min(Wide(factor[l]) * (end ? low : lower[l]), Wide(factor[l]) * (end ? high : upper[l]));
    }
    for (int l = root - 2; l <= j - open; l++) {
      Int lambda = l >= root ? filter.d * factor[l] : 0;
      if (l + 1 >= root && l + 1 <= j) lambda -= filter.a * factor[l + 1];
      if (l + 2 >= root && l + 2 <= j) lambda -= filter.b * factor[l + 2];
      sum -= known[l] ? Wide(2 * Q) * lambda * error[l] : Wide((Wide(lambda) * lambda + weight[l] - 1) / weight[l]);
    }
    return known_cost + (sum > 0 ? ceil_div(sum, Q * Q) : 0);
  }
  Int dual(int j) {
    if (j < root) return known_cost;
    advise(j, middle[j], pivot[j]);
    return dual_of(j, false, 0, 0);
  }
  // Under what is before a place that clamps at an end.
  Int dual_past(int j, bool under) {
    Int end = format.scale * (under ? -32769 : 32768) - target[j];
    Int high = format.scale * (filter.d * (under ? level[0] : level[15]) + filter.bias) - owed(j) - filter.d * end;
    Int low = high - format.scale * filter.errs;
    double w = (high + low) * 0.5 + carried(j), d = pivot[j] - double(filter.d) * filter.d / weight[j];
    if (under ? w <= 0 : w >= 0) return dual(j - 1);
    if (d <= 1e-9) return dual(j - 1);
    advise(j, w, d);
    if (under ? factor[j] < 0 : factor[j] > 0) return dual(j - 1);
    return dual_of(j, true, low, high);
  }
  // The least and the greatest output of a place that costs less than the least so far.
  bool outputs_at(int j, Int& from, Int& to) const {
    Int most = Int(std::sqrt(double(least) / weight[j])) + 2;
    from = std::max(format.low, floor_div(target[j] - most, format.scale));
    to = std::min(format.high, -floor_div(-(target[j] + most), format.scale));
    return from <= to;
  }
  // Whether no result wraps, or clamps.
  void reach(int j, bool& wrap_free, bool& clamp_free) const {
    Int from = 0, to = 0, older_from = 0, older_to = 0;
    wrap_free = clamp_free = true;
    if (!outputs_at(j - 1, from, to) || (filter.b && !outputs_at(j - 2, older_from, older_to))) return;
    Int low = INT64_MAX, high = INT64_MIN;
    for (Int last : {from, to})
      for (Int older : {older_from, older_to}) {
        low = std::min(low, format.predicted(number, last, older)), high = std::max(high, format.predicted(number, last, older));
      }
    low += level[0], high += level[15];
    wrap_free = !format.wraps || (low >= format.low && high <= format.high);
    clamp_free = low >= -32768 && high <= 32767;
  }
  void try_clamp(int j, bool under) {
    Int end = format.ends[under], bound = dual_past(j, under) + cost(end, j) + rest[j + 1];
    if (bound >= least) return;
    if (j + 1 == samples()) { least = bound; return; }
    Int before = known_cost;
    known[j] = true, error[j] = format.scale * end - target[j], known_cost += cost(end, j);
    middle[j] = 0, lower[j] = upper[j] = 0, share[j] = (j > root ? share[j - 1] : 0) + cost(end, j);
    for (int l = j; l < samples(); l++) weigh_row(l);
    search(j + 1);
    known[j] = false, known_cost = before;
    for (int l = j; l < samples(); l++) weigh_row(l);
  }
  // Depth first over the rows from place j on; `least` is at most what any continuation costs, at the end.
  void search(int j) {
    if (++nodes > rows) { least = std::min(least, dual(j - 1) + rest[j]); return; }
    bool wrap_free, clamp_free, is_last = j + 1 == samples();
    reach(j, wrap_free, clamp_free);
    if (!clamp_free)
      for (bool under : {false, true}) try_clamp(j, under);
    Int values[48];
    int count = wrap_free ? 16 : 48;
    for (int i = 0; i < count; i++) values[i] = level[i % 16] + (wrap_free ? 0 : 32768 * (i / 16 - 1));
    set_row(j, values[0]);
    const double from = middle[j], step = double(format.scale) * filter.d;
    auto off = [&](int i) { return std::fabs(from + step * (values[i] - values[0])); };
    int up = int(std::lower_bound(values, values + count, values[0] - from / step) - values);
    up = std::min(up, count - 1);
    if (up > 0 && off(up - 1) < off(up)) up--;
    int down = up - 1;
    while (up < count || down >= 0) {
      bool upward = down < 0 || (up < count && off(up) <= off(down));
      set_row(j, values[upward ? up : down]);
      Int bound = 0;
      if (is_last || share[j] + rest[j + 1] >= double(least) * 0.999) {
        bound = dual(j);
        if (bound + rest[j + 1] >= least) {
          if (upward ? factor[j] >= 0 : factor[j] <= 0) (upward ? up = count : down = -1);
          else (upward ? up++ : down--);
          continue;
        }
      }
      upward ? up++ : down--;
      if (is_last) { least = std::max<Int>(0, bound + rest[j + 1]); continue; }
      double kept_middle = middle[j], kept_share = share[j];
      Int kept_lower = lower[j], kept_upper = upper[j];
      search(j + 1);
      middle[j] = kept_middle, share[j] = kept_share, lower[j] = kept_lower, upper[j] = kept_upper;
    }
  }

  // Under what the places from j on cost with the places before j that the filter reads: at most top, at least low.
  Int from_place(int j, Int top, Int low, double states) {
    if (low >= top) return top;
    least = top;
    Int apart = std::max<Int>(1, (level[15] - level[14]) / 3), offs[3] = {0, apart, -apart};
    for (Int x : offs)
      for (int i = 0; i < (taps() == 2 ? 3 : 1); i++) {
        Int last = nearest_output(j - 1, x), older = nearest_output(j - 2, offs[i]);
        least = std::min(least, cost(last, j - 1) + (taps() == 2 ? cost(older, j - 2) : 0) + greedy(j, last, older));
      }
    if (least <= low) return std::max(low, least);
    double room = double(least - rest[j]), weights = double(weight[j - 1]);
    double count = taps() == 2 ? 3.1416 * room / std::sqrt(weights * weight[j - 2]) / (format.scale * format.scale) : 2 * std::sqrt(room / weights) / format.scale;
    nodes = 0;
    if (count <= states) {
      enter_states(j);
    } else {
      root = j, known_cost = 0, damping = format.scale * double(filter.errs) / 2 / filter.d / (0.3 * format.scale * std::max<Int>(1, level[15] - level[14]));
      std::fill(known_, known_ + MOST + 4, false);
      for (int l = j; l < samples(); l++) weigh_row(l);
      search(j);
    }
    return std::min(top, std::max(least, low));
  }
  void fill_rest(Int top, double states) {
    if (number == 0) {
      for (int j = samples() - 1; j >= 0; j--) {
        Int best = INT64_MAX;
        for (int code = 0; code < 16; code++) best = std::min(best, cost(format.finished(level[code]), j));
        rest[j] = std::min(top, rest[j + 1] + best);
      }
      return;
    }
    Int low = 0;
    for (int j = samples() - 1; j >= taps(); j--) low = std::max(low, from_place(j, top, low, states)), rest[j - taps()] = low;
  }
};

static const double STATES = 100;

// Under what the window of a block costs: twice each sample of it, the last two once where it is left for another block, and
// once the two before it where they are entered.
static Int window_bound(const Format& format, const Int* target, bool entered, bool leaving, long rows) {
  struct Head { Int cost; int shift, filter; };
  std::vector<Head> heads;
  for (int shift = 0; shift < format.shifts; shift++)
    for (int filter = 0; filter < int(format.filters.size()); filter++) {
      HeadSearch head(format, shift, filter, target, leaving, rows);
      heads.push_back({head.greedy(0, head.nearest_output(-1, 0), head.nearest_output(-2, 0)), shift, filter});
    }
  std::stable_sort(heads.begin(), heads.end(), [](const Head& x, const Head& y) { return x.cost < y.cost; });
  Int best = Int(1) << 40;
  for (const Head& tried : heads) {
    HeadSearch head(format, tried.shift, tried.filter, target, leaving, rows);
    head.fill_rest(best, STATES);
    Int bound = head.rest[0];
    if (entered && tried.filter != 0 && bound < best) bound = head.from_place(0, best, bound, STATES);
    best = std::min(best, bound);
  }
  return best;
}

static Int bound_of(const Format& format, const std::vector<Int>& targets, long rows) {
  int samples = format.samples, blocks = int(targets.size()) / samples;
  std::vector<Int> behind(2, 0);
  behind.insert(behind.end(), targets.begin(), targets.end());
  Int first = INT64_MAX, sum = 0;
  for (int shift = 0; shift < format.shifts; shift++) {
    HeadSearch head(format, shift, 0, behind.data() + 2, false, rows);
    head.fill_rest(INT64_MAX, STATES);
    first = std::min(first, head.rest[0]);
  }
  for (int block = 1; block < blocks; block++) sum += window_bound(format, behind.data() + 2 + block * samples, block > 1, block + 1 < blocks, rows);
  return (first + sum + 1) / 2;
}

struct Path {
  Int cost, last, older;
};
// The best so many of some paths, of which no two end in the same state.
static void keep_best(std::vector<Path>& paths, size_t most) {
  std::stable_sort(paths.begin(), paths.end(), [](const Path& x, const Path& y) { return x.cost < y.cost; });
  std::vector<Path> kept;
  for (const Path& path : paths) {
    if (kept.size() == most) break;
    auto same = [&](const Path& other) { return other.last == path.last && other.older == path.older; };
    if (std::none_of(kept.begin(), kept.end(), same)) kept.push_back(path);
  }
  paths = kept;
}
static Int encode(const Format& format, const std::vector<Int>& targets, size_t prefixes, size_t width) {
  std::vector<Path> lists{{0, 0, 0}};
  int samples = format.samples;
  for (int block = 0; block < int(targets.size()) / samples; block++) {
    std::vector<Path> made;
    for (const Path& list : lists)
      for (int shift = 0; shift < format.shifts; shift++)
        for (int filter = 0; filter < (block ? int(format.filters.size()) : 1); filter++) {
          std::vector<Path> paths{list};
          for (int j = 0; j < samples; j++) {
            std::vector<Path> next;
            for (const Path& path : paths)
              for (int code = 0; code < 16; code++) {
                Int y = format.finished(format.predicted(filter, path.last, path.older) + format.level[shift][code]);
                next.push_back({path.cost + format.error(y, targets[block * samples + j]), y, path.last});
              }
            keep_best(next, width);
            paths = next;
          }
          made.insert(made.end(), paths.begin(), paths.end());
        }
    keep_best(made, prefixes);
    lists = made;
  }
  return lists[0].cost;
}

int main(int count, char** words) {
  std::string kind = count > 2 ? words[1] : "", what = count > 2 ? words[2] : "";
  if ((kind != "brr" && kind != "spu") || !((what == "bound" && count == 4) || (what == "encode" && count == 5))) {
    fprintf(stderr, "usage: strong_bound brr|spu bound ROWS | strong_bound brr|spu encode PREFIXES PATHS\n");
    return 2;
  }
  Format format = kind == "brr" ? Format::brr() : Format::spu();
  std::vector<Int> targets;
  for (long value; scanf("%ld", &value) == 1;) targets.push_back(value);
  while (targets.size() % format.samples) targets.push_back(0);
  Int found = what == "bound" ? bound_of(format, targets, atol(words[3])) : encode(format, targets, atol(words[3]), atol(words[4]));
  printf("%ld\n", long(found));
}
