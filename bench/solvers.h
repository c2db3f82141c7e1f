// The least uncovered total of positions and lines, as other solvers see it: a flow network for LEMON, a linear program for GLPK.
#pragma once

#include <glpk.h>
#include <lemon/preflow.h>
#include <lemon/smart_graph.h>

#include <array>
#include <cmath>
#include <cstdlib>
#include <iostream>
#include <vector>

constexpr int kSubTypes = 9;

// Capability first, both by the place of the sub-type from 0.
constexpr std::array<std::array<int, 2>, 14> kPairs = {{{0, 0}, {1, 1}, {2, 2}, {2, 3}, {2, 4}, {3, 3}, {3, 4},
                                                        {4, 4}, {5, 5}, {5, 6}, {6, 6}, {7, 7}, {7, 8}, {8, 8}}};

using Nine = std::array<long long, kSubTypes>;

struct Line {
  long long room;
  Nine capability;
};

struct Instance {
  Nine positions;
  std::vector<Line> lines;

  long long demand() const {
    long long sum = 0;
    for (long long p : positions) sum += p;
    return sum;
  }
};

// Source, line, capability of a line, position, sink.
struct Network {
  using Graph = lemon::SmartDigraph;
  using Capacities = Graph::ArcMap<long long>;

  Graph graph;
  Capacities capacity{graph};
  Graph::Node source = graph.addNode();
  Graph::Node sink = graph.addNode();

  void arc(Graph::Node from, Graph::Node to, long long most) { capacity[graph.addArc(from, to)] = most; }

  explicit Network(const Instance& instance) {
    std::array<Graph::Node, kSubTypes> positions;
    for (int q = 0; q < kSubTypes; ++q) {
      positions[q] = graph.addNode();
      arc(positions[q], sink, instance.positions[q]);
    }
    for (const Line& line : instance.lines) {
      Graph::Node unit = graph.addNode();
      arc(source, unit, line.room);
      std::array<Graph::Node, kSubTypes> capabilities;
      for (int j = 0; j < kSubTypes; ++j) {
        capabilities[j] = graph.addNode();
        arc(unit, capabilities[j], line.capability[j]);
      }
      for (auto [j, q] : kPairs) arc(capabilities[j], positions[q], line.capability[j]);
    }
  }
};

// One column for each pair of a line, one row for each room, capability and position.
struct Program {
  glp_prob* lp = glp_create_prob();
  std::vector<int> rows{0}, columns{0};
  std::vector<double> ones{0};

  int row(long long most) {
    int r = glp_add_rows(lp, 1);
    glp_set_row_bnds(lp, r, GLP_UP, 0, static_cast<double>(most));
    return r;
  }

  void one(int r, int c) {
    rows.push_back(r);
    columns.push_back(c);
    ones.push_back(1);
  }

  explicit Program(const Instance& instance) {
    glp_set_obj_dir(lp, GLP_MAX);
    std::array<int, kSubTypes> positions;
    for (int q = 0; q < kSubTypes; ++q) positions[q] = row(instance.positions[q]);
    for (const Line& line : instance.lines) {
      int room = row(line.room);
      std::array<int, kSubTypes> capabilities;
      for (int j = 0; j < kSubTypes; ++j) capabilities[j] = row(line.capability[j]);
      for (auto [j, q] : kPairs) {
        int c = glp_add_cols(lp, 1);
        glp_set_col_bnds(lp, c, GLP_LO, 0, 0);
        glp_set_obj_coef(lp, c, 1);
        one(room, c);
        one(capabilities[j], c);
        one(positions[q], c);
      }
    }
    glp_load_matrix(lp, static_cast<int>(ones.size()) - 1, rows.data(), columns.data(), ones.data());
  }

  Program(const Program&) = delete;

  ~Program() { glp_delete_prob(lp); }
};

inline long long uncovered_by_flow(const Instance& instance) {
  Network network(instance);
  lemon::Preflow<Network::Graph, Network::Capacities> solver(network.graph, network.capacity, network.source, network.sink);
  solver.run();
  return instance.demand() - solver.flowValue();
}

inline long long uncovered_by_simplex(const Instance& instance) {
  Program program(instance);
  glp_smcp settings;
  glp_init_smcp(&settings);
  settings.msg_lev = GLP_MSG_OFF;
  if (glp_simplex(program.lp, &settings) != 0 || glp_get_status(program.lp) != GLP_OPT) {
    std::cerr << "glpk finds no optimum\n";
    std::exit(1);
  }
  return instance.demand() - std::llround(glp_get_obj_val(program.lp));
}
