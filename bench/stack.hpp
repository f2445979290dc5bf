// How deep a call of the chooser goes.
#pragma once
#include "survey.hpp"

// The bytes of stack that choosing these writes to, on a thread with 64 KiB in all; 0 where it doesn't come back from there.
unsigned long stack_of(const std::vector<Survey> &surveys);
