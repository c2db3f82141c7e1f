// Reads an account as tempo dumps it and finds the least uncovered total by LEMON's preflow and GLPK's simplex.
#include "solvers.h"

#include <chrono>
#include <cstdio>
#include <functional>
#include <limits>
#include <sstream>
#include <string>

namespace {

Instance read(std::istream& in) {
  Instance found;
  std::string text;
  std::getline(in, text);
  std::istringstream first(text);
  for (auto& p : found.positions) first >> p;
  while (std::getline(in, text)) {
    std::istringstream words(text);
    Line line;
    words >> line.room;
    for (auto& c : line.capability) words >> c;
    if (!words) {
      std::cerr << "unreadable line\n";
      std::exit(1);
    }
    found.lines.push_back(line);
  }
  return found;
}

struct Taken {
  long long flow;
  double micros;
};

// The least time of a solve, over at least three solves and 0.3 seconds.
Taken taken(const std::function<long long(double&)>& solve) {
  Taken found{0, std::numeric_limits<double>::infinity()};
  double all = 0;
  for (int i = 0; i < 3 || all < 3e5; ++i) {
    double micros = 0;
    found.flow = solve(micros);
    found.micros = std::min(found.micros, micros);
    all += micros;
  }
  return found;
}

using Clock = std::chrono::steady_clock;

double since(Clock::time_point start) {
  return std::chrono::duration<double, std::micro>(Clock::now() - start).count();
}

// The graph stands before the clock starts; the solver's own tables do not.
Taken lemon_taken(const Instance& instance) {
  Network network(instance);
  return taken([&](double& micros) {
    auto start = Clock::now();
    lemon::Preflow<Network::Graph, Network::Capacities> solver(network.graph, network.capacity, network.source,
                                                               network.sink);
    solver.run();
    long long flow = solver.flowValue();
    micros = since(start);
    return flow;
  });
}

// The problem stands before the clock starts, with its first basis.
Taken glpk_taken(const Instance& instance) {
  return taken([&](double& micros) {
    Program program(instance);
    glp_smcp settings;
    glp_init_smcp(&settings);
    settings.msg_lev = GLP_MSG_OFF;
    auto start = Clock::now();
    int refused = glp_simplex(program.lp, &settings);
    micros = since(start);
    if (refused != 0 || glp_get_status(program.lp) != GLP_OPT) {
      std::cerr << "glpk finds no optimum\n";
      std::exit(1);
    }
    return std::llround(glp_get_obj_val(program.lp));
  });
}

}  // namespace

// Prints of each peer what stays uncovered and the microseconds of a solve.
int main() {
  Instance instance = read(std::cin);
  Taken flow = lemon_taken(instance);
  Taken simplex = glpk_taken(instance);
  std::printf("%lld %.2f %lld %.2f\n", instance.demand() - flow.flow, flow.micros, instance.demand() - simplex.flow,
              simplex.micros);
}
