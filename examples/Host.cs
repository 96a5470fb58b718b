// Runs frames of a script from C#, by P/Invoke. The library has to be a shared one, `libframe_jobs.so`; docs/EMBEDDING.md
// says how it is linked. This file is shown and not built by the repository.
using System;
using System.Runtime.InteropServices;
using System.Text;
using System.Threading;

[StructLayout(LayoutKind.Sequential)]
public struct FrameHandle
{
    public IntPtr At;
}

public static class Frame
{
    public const byte Done = 0, Again = 11, Idle = 12, Over = 13, Next = 14, Busy = 15;

    const string Library = "frame_jobs";

    [DllImport(Library)]
    public static extern byte frame_open(byte[] script, UIntPtr length, ref FrameHandle handle, out uint line);

    [DllImport(Library)]
    public static extern byte frame_column(ref FrameHandle columns, byte[] name, UIntPtr nameLength, long[] values,
        UIntPtr count);

    [DllImport(Library)]
    public static extern byte frame_begin(ref FrameHandle script, ref FrameHandle columns, ref FrameHandle frame);

    [DllImport(Library)]
    public static extern byte frame_next(ref FrameHandle frame, uint helpers);

    [DllImport(Library)]
    public static extern byte frame_helper(ref FrameHandle frame, ref FrameHandle helper);

    [DllImport(Library)]
    public static extern byte frame_turn(ref FrameHandle frame);

    [DllImport(Library)]
    public static extern byte frame_help(ref FrameHandle helper);

    [DllImport(Library)]
    public static extern byte frame_end(ref FrameHandle frame);

    [DllImport(Library)]
    public static extern byte frame_read(ref FrameHandle frame, byte[] name, UIntPtr nameLength, long[] values,
        UIntPtr room, out UIntPtr count);

    [DllImport(Library)]
    public static extern void frame_close(ref FrameHandle handle);
}

public static class Host
{
    const string Script =
        "parallel double_all(p: rw array) { p[index] = p[index] * 2; }\n" +
        "column p \"price\"\n" +
        "schedule doubled double_all(p) 3 1\n" +
        "complete doubled\n";

    // A thread of the program that helps until the section is run. The handle is its own until it is closed.
    static Thread Help(FrameHandle helper)
    {
        var thread = new Thread(() =>
        {
            byte turn;
            while ((turn = Frame.frame_help(ref helper)) != Frame.Over)
                if (turn == Frame.Idle)
                    Thread.Yield();
            Frame.frame_close(ref helper);
        });
        thread.Start();
        return thread;
    }

    static byte RunSection(ref FrameHandle frame)
    {
        var helper = new FrameHandle();
        Frame.frame_next(ref frame, 1);
        Thread thread = Frame.frame_helper(ref frame, ref helper) == Frame.Done ? Help(helper) : null;
        while (Frame.frame_turn(ref frame) == Frame.Again) { }
        thread?.Join();
        return Frame.frame_end(ref frame);
    }

    public static int Main()
    {
        byte[] text = Encoding.UTF8.GetBytes(Script), price = Encoding.UTF8.GetBytes("price"), p = Encoding.UTF8.GetBytes("p");
        FrameHandle script = new(), columns = new(), frame = new();
        if (Frame.frame_open(text, (UIntPtr)text.Length, ref script, out uint line) != Frame.Done)
        {
            Console.Error.WriteLine($"script refused at line {line}");
            return 1;
        }
        long[] values = { 3, 5, 7 };
        Frame.frame_column(ref columns, price, (UIntPtr)price.Length, values, (UIntPtr)values.Length);
        Frame.frame_begin(ref script, ref columns, ref frame);
        byte status;
        do
            status = RunSection(ref frame);
        while (status == Frame.Next);
        Frame.frame_read(ref frame, p, (UIntPtr)p.Length, values, (UIntPtr)values.Length, out _);
        Console.WriteLine(string.Join(", ", values));
        Frame.frame_close(ref frame);
        Frame.frame_close(ref script);
        return status;
    }
}
