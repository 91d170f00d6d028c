// Times the same expansion by KDE's KIO, with the entry read before and with reading it. Argument: the entry's file.
#include <KIO/DesktopExecParser>
#include <KService>
#include <QCoreApplication>
#include <QElapsedTimer>
#include <QUrl>

#include <algorithm>
#include <cstdio>
#include <vector>

template <typename Call> static double median(int calls, Call call) {
    std::vector<double> times;
    for (int round = 0; round < 51; round++) {
        QElapsedTimer timer;
        timer.start();
        for (int i = 0; i < calls; i++) {
            call();
        }
        times.push_back(timer.nsecsElapsed() / 1e3 / calls);
    }
    std::sort(times.begin(), times.end());
    return times[times.size() / 2];
}

int main(int argc, char **argv) {
    QCoreApplication application(argc, argv);
    const QString path = QString::fromLocal8Bit(argv[1]);
    const QList<QUrl> files{QUrl::fromLocalFile("/home/a b.odt"), QUrl::fromLocalFile("/home/c.odt")};
    KService service(path);
    if (KIO::DesktopExecParser(service, files).resultingArguments().size() != 9) {
        std::fprintf(stderr, "KIO gives other arguments\n");
        return 1;
    }
    std::printf("KIO, reading included: %.1f us\n", median(50, [&] {
        KService read(path);
        KIO::DesktopExecParser(read, files).resultingArguments();
    }));
    std::printf("KIO, without: %.1f us\n", median(200, [&] { KIO::DesktopExecParser(service, files).resultingArguments(); }));
}
