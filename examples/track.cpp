// Tracks a pass through the C++ interface on two frequencies, 150 and 400 MHz: carriers at 300 and 800 Hz, no bank. examples/programs
// builds and runs it.
#include <cmath>
#include <cstdio>
#include <vector>

#include "gibsumac.hpp"

static std::vector<float> carrier(double hertz, int block, int pairs) {
    std::vector<float> samples;
    for (int i = 0; i < pairs; i++) {
        double turn = 2.0 * 3.141592653589793 * hertz * (block * pairs + i) / 40000.0;
        samples.push_back(static_cast<float>(0.5 * std::cos(turn)));
        samples.push_back(static_cast<float>(0.5 * std::sin(turn)));
    }
    return samples;
}

static int refused(const char *call, uint64_t number) {
    std::fprintf(stderr, "%s refused %d\n", call, static_cast<int>(number));
    return 1;
}

int main() {
    gibsumac_settings settings{};
    settings.rate = 40000;
    settings.factor = 1;
    settings.modulation = GIBSUMAC_CARRIER;
    settings.adaptive = settings.dual_lock = settings.two = true;
    settings.ratio = 400.0 / 150.0;
    gibsumac::receiver receiver(settings);
    if (receiver.refusal() != GIBSUMAC_ACCEPTED)
        return refused("open", receiver.refusal());
    gibsumac_carriers carriers{150e6, 0.0, 0.0, 400e6};
    if (uint64_t number = receiver.assign(carriers))
        return refused("assign", number);
    std::printf("block locked first/Hz second/Hz metric\n");
    for (int block = 0; block < 8; block++) {
        std::vector<float> first = carrier(300.0, block, 400), second = carrier(800.0, block, 400);
        gibsumac_answer a = receiver.track(first.data(), first.size(), second.data(), second.size());
        if (a.refusal != GIBSUMAC_ACCEPTED)
            return refused("block", a.refusal);
        const double *x = receiver.channel().pll.x, turn = 2.0 * 3.141592653589793;
        std::printf("%d %d %.3f %.3f %.3f\n", block + 1, a.locked, x[1] / turn, x[4] / turn, a.metric);
    }
    receiver.release();
}
