using System;
using System.Collections.Generic;
using System.IO;
using System.Linq;
using System.Text;
using System.Threading;
using Odfilter;

/// <summary>Closing in any order, threads, and calls without end.</summary>
internal static partial class Tests
{
    private static void ChecksOfClosing()
    {
        foreach (var order in Permutations(4))
        {
            var schema = Schema.Read(Document);
            var type = schema.Type("Mini.Item");
            var filter = type.Check("Active");
            var judge = filter.NewJudge();
            var text = Encoding.UTF8.GetBytes(Row(1, "null", true));
            var objects = new IDisposable[] { schema, type, filter, judge };
            var calls = new Action[]
            {
                () => schema.Type("Mini.Item"), () => type.Check("Active"), () => filter.Canonical.ToString(),
                () => judge.FilterLines(text),
            };
            for (var step = 0; step < 4; step++)
            {
                foreach (var left in order.Skip(step))
                {
                    calls[left]();
                }
                objects[order[step]].Dispose();
                objects[order[step]].Dispose();
                Thrown<ObjectDisposedException>(calls[order[step]]);
            }
            That("closed in the order " + string.Join(" ", order), true, null);
        }
    }

    private static IEnumerable<List<int>> Permutations(int count)
    {
        if (count == 0)
        {
            return new[] { new List<int>() };
        }
        return Permutations(count - 1).SelectMany(rest => Enumerable.Range(0, count).Select(at =>
        {
            var order = new List<int>(rest);
            order.Insert(at, count - 1);
            return order;
        }));
    }

    /// <summary>Eight threads use one type, one filter and one judge, while others close filters under calls.</summary>
    private static void ChecksOfThreads()
    {
        var type = Item();
        var filter = type.Check("Active and ID lt 200");
        var shared = filter.NewJudge();
        var faults = 0;
        var threads = Enumerable.Range(0, 8).Select(_ => new Thread(() =>
        {
            using (var own = filter.NewJudge())
            {
                for (var id = 0; id < 400; id++)
                {
                    var text = Row(id, "null", true);
                    var isWell = own.Verdict(text) == (id < 200) && shared.Verdict(text) == (id < 200);
                    if (!isWell || !IsWellWhereClosed(type))
                    {
                        Interlocked.Increment(ref faults);
                    }
                }
            }
        })).ToList();
        threads.ForEach(it => it.Start());
        threads.ForEach(it => it.Join());
        Same("threads", faults, 0);
    }

    private static bool IsWellWhereClosed(EntityType type)
    {
        var filter = type.Check("Active");
        var judge = filter.NewJudge();
        var closed = new ManualResetEventSlim();
        ThreadPool.QueueUserWorkItem(_ =>
        {
            judge.Dispose();
            filter.Dispose();
            closed.Set();
        });
        try
        {
            return judge.Verdict(Row(1, "null", true)) == true && filter.Canonical == "Active";
        }
        catch (ObjectDisposedException)
        {
            return true;
        }
        finally
        {
            closed.Wait();
        }
    }

    /// <summary>A million calls leave the memory of the process as it was, with some objects that nobody
    /// closes.</summary>
    private static void ChecksOfGrowth()
    {
        Calls(10000);
        var before = Settled();
        Calls(50000);
        var after = Settled();
        That("a million calls", after < before + (16 << 20), before + " bytes became " + after);
        Console.WriteLine("figure: " + ((after - before) >> 10) + " KiB more after a million calls");
    }

    private static void Calls(int rounds)
    {
        var type = Item();
        var text = Encoding.UTF8.GetBytes(Row(1, "null", true));
        var query = Encoding.UTF8.GetBytes("$top=5&$filter=Active%20and%20ID%20lt%20500");
        for (var round = 0; round < rounds; round++)
        {
            var filter = type.CheckUrl(query);
            var judge = filter.NewJudge(bound: 10);
            for (var again = 0; again < 16; again++)
            {
                failed += judge.Verdict(text) == true ? 0 : 1;
            }
            if (round % 16 == 0)
            {
                Thrown<FilterRefusedException>(() => type.Check("Foo"));
                Thrown<RowException>(() => judge.Verdict("{}"));
            }
            if (round % 4 != 0)
            {
                judge.Dispose();
                filter.Dispose();
            }
        }
    }

    /// <summary>How many bytes of memory the process has, after what nobody holds was collected.</summary>
    private static long Settled()
    {
        for (var again = 0; again < 5; again++)
        {
            GC.Collect();
            GC.WaitForPendingFinalizers();
        }
        return long.Parse(File.ReadAllText("/proc/self/statm").Split(' ')[1]) * 4096;
    }
}
