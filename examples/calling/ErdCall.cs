// Checks a report, or compares two: `ErdCall FILE` or `ErdCall LEFT RIGHT`. Writes the text and ends with the status, as the
// program erd does. It calls erd.dll on Windows, and liberd.so.0 elsewhere.
using System;
using System.IO;
using System.Runtime.InteropServices;
using System.Text;

static class Erd
{
    static class OnWindows
    {
        const string Library = "erd.dll";

        [DllImport(Library, CallingConvention = CallingConvention.Cdecl)]
        internal static extern int erd_check(byte[] bytes, UIntPtr size, byte[] prefer, out IntPtr text, out UIntPtr length);

        [DllImport(Library, CallingConvention = CallingConvention.Cdecl)]
        internal static extern int erd_compare(byte[] left, UIntPtr leftSize, byte[] right, UIntPtr rightSize, byte[] prefer,
                                               out IntPtr text, out UIntPtr length);

        [DllImport(Library, CallingConvention = CallingConvention.Cdecl)]
        internal static extern void erd_free(IntPtr text);
    }

    // The same for Linux. Each call names its library in the program text, so there are two sets.
    static class OnLinux
    {
        const string Library = "liberd.so.0";

        [DllImport(Library, CallingConvention = CallingConvention.Cdecl)]
        internal static extern int erd_check(byte[] bytes, UIntPtr size, byte[] prefer, out IntPtr text, out UIntPtr length);

        [DllImport(Library, CallingConvention = CallingConvention.Cdecl)]
        internal static extern int erd_compare(byte[] left, UIntPtr leftSize, byte[] right, UIntPtr rightSize, byte[] prefer,
                                               out IntPtr text, out UIntPtr length);

        [DllImport(Library, CallingConvention = CallingConvention.Cdecl)]
        internal static extern void erd_free(IntPtr text);
    }

    static readonly bool IsWindows = Environment.OSVersion.Platform == PlatformID.Win32NT;

    public static int Check(byte[] report, string prefer, out byte[] text)
    {
        IntPtr at;
        UIntPtr length;
        int outcome = IsWindows
            ? OnWindows.erd_check(report, Size(report), Utf8(prefer), out at, out length)
            : OnLinux.erd_check(report, Size(report), Utf8(prefer), out at, out length);
        text = Taken(at, length);
        return outcome;
    }

    public static int Compare(byte[] left, byte[] right, string prefer, out byte[] text)
    {
        IntPtr at;
        UIntPtr length;
        int outcome = IsWindows
            ? OnWindows.erd_compare(left, Size(left), right, Size(right), Utf8(prefer), out at, out length)
            : OnLinux.erd_compare(left, Size(left), right, Size(right), Utf8(prefer), out at, out length);
        text = Taken(at, length);
        return outcome;
    }

    static UIntPtr Size(byte[] bytes) => (UIntPtr)(ulong)bytes.LongLength;

    // The preferred type ends with a zero byte. Null means no preference.
    static byte[] Utf8(string text) => text == null ? null : Encoding.UTF8.GetBytes(text + "\0");

    // Copies the text, and gives the library its memory back.
    static byte[] Taken(IntPtr at, UIntPtr length)
    {
        if (at == IntPtr.Zero)
            return new byte[0];
        var text = new byte[(int)(ulong)length];
        Marshal.Copy(at, text, 0, text.Length);
        if (IsWindows)
            OnWindows.erd_free(at);
        else
            OnLinux.erd_free(at);
        return text;
    }
}

static class ErdCall
{
    static int Main(string[] names)
    {
        if (names.Length != 1 && names.Length != 2)
        {
            Console.Error.WriteLine("usage: ErdCall FILE, or ErdCall LEFT RIGHT");
            return 3;
        }
        byte[] left = File.ReadAllBytes(names[0]);
        byte[] text;
        int outcome = names.Length == 1
            ? Erd.Check(left, null, out text)
            : Erd.Compare(left, File.ReadAllBytes(names[1]), null, out text);
        using (Stream output = Console.OpenStandardOutput())
            output.Write(text, 0, text.Length);
        if (outcome >= 3)
            Console.Error.WriteLine(outcome == 4 ? "no memory" : "too long");
        return outcome;
    }
}
