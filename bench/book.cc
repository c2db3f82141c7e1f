// A book of journals as a user would write it in C++, with LEMON or GLPK for the least cover: a peer for `shadow`'s times.
// It answers journals of granted calls; of refusals it knows nothing.
//   book flow|simplex <JOURNAL        answers the journal
//   book make QSES UNITS KIND CALLS   prints a journal: a book of so many QSEs and units, and then so many calls of a kind
#include "solvers.h"

#include <algorithm>
#include <cstdio>
#include <map>
#include <random>
#include <sstream>
#include <string>

namespace {

using Numbers = std::vector<long long>;

struct Side {
  long long status, hsl, lsl, potential;
  Nine offered, cop, qualified;
};

struct Unit {
  long long qse, kind, outage, decommitted, before;
  Side sides[2];
};

struct Figures {
  long long credit = 0, purchase = 0, sale = 0, tie = 0;
  long long import[2] = {0, 0}, storage[2] = {0, 0};
  Nine positions[2] = {};
};

struct Qse {
  long long number;
  Figures figures;
  long long shortfall = 0, cents = 0;
};

struct Load {
  long long qse, point, kwh, cents;
};

struct Trade {
  long long kind, sub_type, sides, seller, buyer, kw;
  bool counts;
};

struct Full {
  Line line;
  long long available, offline, load_part;
};

struct Account {
  long long load = 0, net = 0, storage = 0;
  Instance asked;
  std::vector<Full> lines;
};

Full line_of(const Unit& unit, int side) {
  const Side& plan = unit.sides[side];
  Full found{};
  bool off = plan.status >= 2;
  found.line.room = plan.status == 0 ? 0 : plan.status == 1 ? plan.hsl - plan.lsl : plan.hsl;
  long long slow = 0, up = 0;
  for (int k = 0; k < kSubTypes; ++k) {
    bool barred = (off && k < 5) || (plan.status == 2 && k < 7);
    long long least = std::min({found.line.room, plan.offered[k], plan.cop[k], plan.qualified[k]});
    found.line.capability[k] = barred ? 0 : least;
    if (k >= 5) slow += found.line.capability[k];
    if (k != 1) up += found.line.capability[k];
  }
  const Side& own = (unit.kind == 2 || unit.outage) ? unit.sides[0] : plan;
  bool ready = own.status == 1 || own.status == 3;
  long long gives = unit.kind == 4 ? 0 : unit.kind == 2 ? std::min(own.hsl, own.potential) : own.hsl;
  found.available = unit.decommitted ? unit.before : ready ? gives : 0;
  found.offline = off ? std::min(found.line.room, slow) : 0;
  found.load_part = unit.kind == 4 ? std::min(found.line.room, up) : 0;
  return found;
}

struct Book {
  std::vector<Qse> qses;
  std::vector<Load> loads;
  std::vector<Unit> units;
  std::vector<Trade> trades;
  std::vector<std::pair<long long, long long>> claims;
  long long total = 0, made = 0, outstanding = 0;
  bool by_flow = true;

  Account account(const Qse& qse, int side) const {
    Account found;
    const Figures& f = qse.figures;
    std::array<long long, 10> moved{};
    for (const Load& l : loads)
      if (l.qse == qse.number) found.load += l.kwh;
    for (const Trade& t : trades)
      if (t.counts && (t.sides == 3 || t.sides == side + 1)) {
        if (t.seller == qse.number) moved[t.sub_type] += t.kw;
        if (t.buyer == qse.number) moved[t.sub_type] -= t.kw;
      }
    found.net = f.purchase - f.sale - moved[0] + f.import[f.tie ? 0 : side];
    found.storage = f.storage[side];
    for (int k = 0; k < kSubTypes; ++k) found.asked.positions[k] = std::max(0LL, f.positions[side][k] + moved[k + 1]);
    for (const Unit& unit : units)
      if (unit.qse == qse.number) {
        found.lines.push_back(line_of(unit, side));
        found.asked.lines.push_back(found.lines.back().line);
      }
    return found;
  }

  static long long overall(const Account& a, long long storage) {
    const Nine& p = a.asked.positions;
    long long offline = 0, supply = 0;
    for (const Full& l : a.lines) {
      offline += l.offline;
      supply += l.available + l.load_part;
    }
    long long fast = p[0] + p[2] + p[3] + p[4], slow = p[5] + p[6] + p[7] + p[8];
    return std::max(0LL, 4 * a.load + fast + std::max(0LL, slow - offline) - supply - a.net - storage);
  }

  static long long level(const Account& a, const std::vector<int>& group) {
    long long asked = 0;
    for (int k : group) asked += a.asked.positions[k];
    for (const Full& l : a.lines) {
      long long given = 0;
      for (int k : group) given += l.line.capability[k];
      asked -= std::min(l.line.room, given);
    }
    return std::max(0LL, asked);
  }

  static long long grouped(const Account& a) {
    static const std::vector<std::vector<int>> groups = {
        {0}, {2, 3, 4}, {0, 2, 3, 4}, {0, 2, 3, 4, 5, 6}, {0, 2, 3, 4, 5, 6, 7, 8}};
    long long most = 0;
    for (const auto& group : groups) most = std::max(most, level(a, group));
    return std::max(overall(a, 0), most + level(a, {1}));
  }

  long long uncovered(const Account& a) const { return by_flow ? uncovered_by_flow(a.asked) : uncovered_by_simplex(a.asked); }

  long long sub_type(const Account& a) const { return std::max(overall(a, a.storage), uncovered(a)); }

  long long shortfall(const Qse& qse, const std::string& measure) const {
    long long most = 0;
    for (int side = 0; side < 2; ++side) {
      Account a = account(qse, side);
      if (measure != "subtype") most = std::max(most, grouped(a));
      if (measure != "grouped") most = std::max(most, sub_type(a));
    }
    return std::max(0LL, most - qse.figures.credit);
  }

  Qse& named(long long number) {
    return *std::find_if(qses.begin(), qses.end(), [&](const Qse& q) { return q.number == number; });
  }
};

template <class Rows, class Weight>
void divide(Rows& rows, long long pot, Weight weight) {
  __int128 all = 0, sum = 0;
  for (const auto& row : rows) all += weight(row);
  if (all == 0) return;
  for (auto& row : rows) {
    __int128 before = sum;
    sum += weight(row);
    row.cents += static_cast<long long>(pot * sum / all - pot * before / all);
  }
}

Figures figures_of(const Numbers& n) {
  Figures f;
  f.credit = n[1], f.purchase = n[2], f.sale = n[3], f.tie = n[4];
  for (int side = 0; side < 2; ++side) {
    const long long* at = &n[5 + 11 * side];
    f.import[side] = at[0], f.storage[side] = at[1];
    std::copy(at + 2, at + 11, f.positions[side].begin());
  }
  return f;
}

Unit unit_of(const Numbers& n) {
  Unit u{n[0], n[1], n[2], n[3], n[4], {}};
  for (int side = 0; side < 2; ++side) {
    const long long* at = &n[5 + 31 * side];
    Side& s = u.sides[side];
    s.status = at[0], s.hsl = at[1], s.lsl = at[2], s.potential = at[3];
    std::copy(at + 4, at + 13, s.offered.begin());
    std::copy(at + 13, at + 22, s.cop.begin());
    std::copy(at + 22, at + 31, s.qualified.begin());
  }
  return u;
}

// What follows the call's word in its answer.
std::string answer(Book& book, const std::string& call, const std::string& measure, const Numbers& n) {
  std::ostringstream out;
  if (call == "enrol") book.qses.push_back({n[0], {}});
  if (call == "figures") book.named(n[0]).figures = figures_of(n);
  if (call == "load") book.loads.push_back({n[0], n[1], n[2], 0});
  if (call == "resource") book.units.push_back(unit_of(n));
  if (call == "void") book.trades[n[0]].counts = false;
  if (call == "trade") {
    out << ' ' << book.trades.size();
    book.trades.push_back({n[0], n[1], n[2], n[3], n[4], n[5], true});
  }
  if (call == "short") out << ' ' << book.shortfall(book.named(n[0]), measure);
  if (call == "cover") out << ' ' << book.uncovered(book.account(book.named(n[0]), static_cast<int>(n[1]) - 1));
  if (call == "strike") {
    book.total = 0;
    for (Qse& qse : book.qses) book.total += qse.shortfall = book.shortfall(qse, measure);
    out << ' ' << book.total;
  }
  if (call == "share") {
    if (book.total == 0) return " none";
    out << ' ' << book.named(n[0]).shortfall << ' ' << book.total;
  }
  if (call == "claim") {
    out << ' ' << book.made;
    book.claims.push_back({n[0], n[1]});
    ++book.made, ++book.outstanding;
  }
  if (call == "charge") {
    auto [cents, rate] = book.claims[n[0]];
    long long pot = std::min(cents, rate * book.total / 1000);
    divide(book.qses, pot, [](const Qse& q) { return q.shortfall; });
    divide(book.loads, cents - pot, [](const Load& l) { return l.kwh; });
    out << ' ' << pot << ' ' << cents - pot;
  }
  if (call == "charge" || call == "hand_back") --book.outstanding;
  return out.str();
}

void run(Book& book) {
  std::string text;
  for (long long number = 1; std::getline(std::cin, text); ++number) {
    std::istringstream words(text);
    std::string call, measure;
    if (!(words >> call) || call[0] == '#') continue;
    if (call == "short" || call == "strike") words >> measure;
    Numbers numbers;
    for (long long n; words >> n;) numbers.push_back(n);
    std::cout << number << ' ' << call << " granted" << answer(book, call, measure, numbers) << '\n';
  }
  for (const Qse& q : book.qses) std::cout << "qse " << q.number << " shortfall " << q.shortfall << " cents " << q.cents << '\n';
  for (const Load& l : book.loads) std::cout << "load " << l.qse << ' ' << l.point << ' ' << l.kwh << " cents " << l.cents << '\n';
  std::cout << "claims made " << book.made << " outstanding " << book.outstanding << '\n';
}

// Journals that look drawn and are the same in every run.
struct Made {
  std::mt19937 draws{20261127};

  int up_to(int most) { return static_cast<int>(draws() % static_cast<unsigned>(most + 1)); }

  void nine(int most) {
    for (int k = 0; k < kSubTypes; ++k) std::printf(" %d", up_to(most));
  }

  void side() {
    int hsl = 200 + up_to(300), status = up_to(9) < 7 ? 1 : 2 + up_to(1);
    std::printf(" %d %d %d 0", status, hsl, up_to(hsl / 2));
    for (int list = 0; list < 3; ++list) nine(200);
  }

  void figures(int qse, int units) {
    std::printf("figures %d %d %d 0 0", qse, up_to(50), 100 * units);
    for (int s = 0; s < 2; ++s) {
      std::printf(" 0 0");
      nine(70 * units);
    }
    std::printf("\n");
  }

  void book(int qses, int units) {
    std::printf("open 1\n");
    for (int q = 1; q <= qses; ++q) std::printf("enrol %d\n", q);
    for (int q = 1; q <= qses; ++q) figures(q, units / qses);
    for (int u = 0; u < units; ++u) {
      std::printf("load %d %d %d\n", 1 + u % qses, u, up_to(80));
      std::printf("resource %d 1 0 0 0", 1 + u % qses);
      side();
      side();
      std::printf("\n");
      if (qses > 1) std::printf("trade 1 0 3 %d %d %d\n", 1 + u % qses, 1 + (u + 1) % qses, 1 + up_to(20));
    }
  }

  void call(const std::string& kind, int qses, int units) {
    int qse = 1 + up_to(qses - 1);
    const char* measure = up_to(1) ? "grouped" : "subtype";
    if (kind == "grouped" || kind == "subtype") std::printf("strike %s\nreopen\n", kind.c_str());
    if (kind == "cover") std::printf("cover %d %d\n", qse, 1 + up_to(1));
    if (kind == "mixed") switch (up_to(3)) {
        case 0: std::printf("short %s %d\n", measure, qse); break;
        case 1: std::printf("cover %d %d\n", qse, 1 + up_to(1)); break;
        default: figures(qse, units / qses);
      }
  }
};

}  // namespace

int main(int count, char** words) {
  std::ios::sync_with_stdio(false);
  std::string first = count > 1 ? words[1] : "";
  if (first == "make" && count == 6) {
    int qses = std::atoi(words[2]), units = std::atoi(words[3]);
    Made made;
    made.book(qses, units);
    for (int i = std::atoi(words[5]); i > 0; --i) made.call(words[4], qses, units);
    return 0;
  }
  if (first != "flow" && first != "simplex") return 2;
  Book book;
  book.by_flow = first == "flow";
  run(book);
}
