#pragma once

void print_surveys();  // survey.cpp
void print_plays();    // play.cpp
