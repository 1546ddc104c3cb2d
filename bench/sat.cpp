// CaDiCaL in-process: a fresh solver for each question, the negated sequent by Tseitin's encoding.
#include "peer.h"
#include <cadical.hpp>

namespace {

struct encoder {
    CaDiCaL::Solver solver;
    const uint8_t *question;
    const uint8_t *second;
    int next = LETTERS + 1;

    void clause(int a, int b = 0, int c = 0)
    {
        solver.add(a);
        if (b)
            solver.add(b);
        if (c)
            solver.add(c);
        solver.add(0);
    }

    // The literal that stands for the formula at this place.
    int literal(uint8_t at)
    {
        uint8_t command = question[at];
        if (command == LETTER)
            return question[at + 1] + 1;
        int f = literal(at + 1);
        if (command == NOT)
            return -f;
        int g = literal(second[at]), x = next++;
        if (command == EQUIV)
            equivalent(x, f, g);
        else if (command == AND)
            both(x, f, g);
        else
            both(-x, command == OR ? -f : f, -g);
        return x;
    }

    void both(int x, int f, int g)
    {
        clause(-x, f);
        clause(-x, g);
        clause(x, -f, -g);
    }

    void equivalent(int x, int f, int g)
    {
        clause(-x, -f, g);
        clause(-x, f, -g);
        clause(x, f, g);
        clause(x, -f, -g);
    }
};

} // namespace

uint32_t cadical_decide(const uint8_t *question, size_t length, uint64_t, uint64_t out[4])
{
    reading r;
    uint8_t second[MOST_BYTES];
    out[0] = out[1] = out[2] = out[3] = 0;
    if (peer_read(question, length, &r)) {
        out[0] = r.place;
        return r.number;
    }
    second_parts(question, &r, second);
    encoder e;
    e.solver.set("quiet", 1);
    e.question = question;
    e.second = second;
    for (int side = 0; side < 2; side++)
        for (int i = 0; i < r.formulas[side]; i++)
            e.clause(side ? -e.literal(r.starts[1][i]) : e.literal(r.starts[0][i]));
    out[0] = e.solver.solve() == 10;
    return 0;
}
