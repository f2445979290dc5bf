// Surveys searched for to be slow.
#pragma once
#include "survey.hpp"

double microseconds(Way way, Lists &lists);

// So many surveys, each found by a climb of so many seconds toward surveys on which the chooser takes longer.
std::vector<Survey> slow_surveys(unsigned count, double seconds);
