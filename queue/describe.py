#!/usr/bin/python3
"""Describes a printer to CUPS: reads the text of a profile on standard input, and writes a description.

    driver_program profile profile=NAME | describe.py ppd NAME [paper|labels]
    driver_program profile profile=NAME | describe.py attributes NAME [paper|labels]

`ppd` writes a PPD for a queue, in which the text of the profile stands, `attributes` the attributes of an IPP printer
for `ippeveprinter -a`. Resolution, margins and colours are those of the profile. NAME is what users see: up to 31
letters, digits, blanks and _ . + -. The last word chooses the sizes of sheets that are offered, of which those that the
driver takes at the profile's resolution are kept.
"""
import math
import re
import sys
from collections import namedtuple

MOST_COLUMNS = 8191
MOST_INCHES = 22
SHORTEST = 36  # points of a custom sheet inside the margins
LONGEST_NAME = 31  # characters of a PPD's ShortNickName

# The name in a PPD, the text that users see, the name in IPP, and the width and height in millimetres
Sheet = namedtuple("Sheet", "name text ipp_name width height")
SHEETS = {
    "paper": [
        Sheet("A4", "A4", "iso_a4_210x297mm", 210, 297),
        Sheet("A3", "A3", "iso_a3_297x420mm", 297, 420),
        Sheet("A5", "A5", "iso_a5_148x210mm", 148, 210),
        Sheet("A6", "A6", "iso_a6_105x148mm", 105, 148),
        Sheet("Letter", "US Letter", "na_letter_8.5x11in", 215.9, 279.4),
        Sheet("Legal", "US Legal", "na_legal_8.5x14in", 215.9, 355.6),
        Sheet("4x6", "Photo 4 x 6 inch", "na_index-4x6_4x6in", 101.6, 152.4),
    ],
    "labels": [
        Sheet("w176h82", "Label 62 x 29 mm", "om_label-62x29_62x29mm", 62, 29),
        Sheet("w176h283", "Label 62 x 100 mm", "om_label-62x100_62x100mm", 62, 100),
        Sheet("w82h255", "Label 29 x 90 mm", "om_label-29x90_29x90mm", 29, 90),
        Sheet("4x6", "Label 4 x 6 inch", "na_index-4x6_4x6in", 101.6, 152.4),
    ],
}

# A kind of pixel: the text that users see, the name in IPP, and its numbers in a page's header (PWG 5102.4)
Pixels = namedtuple("Pixels", "text ipp_name space bits")
PIXELS = {
    "RGB": Pixels("Color", "srgb_8", 19, 8),
    "Gray": Pixels("Grayscale", "sgray_8", 18, 8),
    "CMYK": Pixels("Cyan, Magenta, Yellow and Black", "cmyk_8", 6, 8),
    "Black": Pixels("Black, 1 Bit a Pixel", "black_1", 3, 1),
}
# What is fed, by the sizes of sheets, and where: the only choice of MediaType and InputSlot, its text, its name in IPP
MEDIA = {"paper": ("Plain", "Paper", "stationery"), "labels": ("Labels", "Labels", "labels")}
SOURCE = ("Main", "Sheet Feeder", "main")
INKS = {"k": "black", "c": "cyan", "m": "magenta", "y": "yellow"}
HEADS = ("escp2-profile 1\n", "escp2-profile 2\n")

KERNELS = [("None", "By the Print Quality"), ("fs", "Floyd and Steinberg"), ("jjn", "Jarvis, Judice and Ninke"),
           ("stucki", "Stucki")]
# A quality: its name in a PPD, the text that users see, and its number in IPP. The first is the default.
Quality = namedtuple("Quality", "name text number")
QUALITIES = [
    Quality("Normal", "Normal, by Jarvis, Judice and Ninke", 4), Quality("Draft", "Draft, by Floyd and Steinberg", 3),
    Quality("High", "High, by Stucki", 5)]
GRAINS = [("None", "By the Print Quality"), ("0", "Off"), ("8", "Weak"), ("16", "Medium"), ("32", "Strong")]
BLACK_STARTS = [("None", "By the Profile"), ("0", "From White On"), ("64", "From Light Tones On"),
                ("128", "From the Middle On")]
WORKERS = (1, 2, 4, 8, 16, 32, 64)


class Profile:
    """A profile as `driver_program profile` prints it: each key is there, each number is valid."""

    def __init__(self, text):
        pairs = dict(line.split("=", 1) for line in text.splitlines() if "=" in line)
        self.text = text
        self.across, self.down = int(pairs["hdpi"]), int(pairs["vdpi"])
        self.left, self.right = (int(pairs[key]) / self.across for key in ("left", "right"))  # inches
        self.top, self.bottom = (int(pairs[key]) / self.down for key in ("top", "bottom"))
        self.inks = [name for letter, name in INKS.items() if letter in pairs["inks"]]
        self.models = ["Gray", "Black"] if pairs["inks"] == "k" else list(PIXELS)
        half = int(pairs["nozzles"]) // 2
        self.shingles = half > 0 and math.gcd(half, int(pairs["pitch"])) == 1

    def takes(self, sheet):
        return sheet.width / 25.4 * self.across <= MOST_COLUMNS and sheet.height / 25.4 <= MOST_INCHES


def points(length):
    """Of millimetres."""
    return round(length * 72 / 25.4)


def millimetres(length):
    """Of points."""
    return math.floor(length * 2540 / 72) / 100


def ppd(profile, name, sheets):
    """The PPD.

    It has no line *PWGRaster: with that line, options of a job would override ColorModel and Resolution.
    """
    return "\n".join([
        ppd_header(profile, name), ppd_filters(), ppd_profile(profile), ppd_sheets(profile, sheets),
        ppd_custom_sheet(profile), ppd_media(sheets), ppd_choices(profile),
        '*DefaultFont: Courier\n*Font Courier: Standard "(1.05)" Standard ROM', ""])


def ppd_header(profile, name):
    colour = profile.models[0] == "RGB"
    full = f"Jinthbao {name}"
    return f'''*PPD-Adobe: "4.3"
*FormatVersion: "4.3"
*FileVersion: "1.0"
*LanguageVersion: English
*LanguageEncoding: ISOLatin1
*PCFileName: "{name[:8].upper()}.PPD"
*Product: "(Jinthbao {name})"
*Manufacturer: "Jinthbao"
*ModelName: "Jinthbao {name}"
*ShortNickName: "{full if len(full) <= LONGEST_NAME else name}"
*NickName: "Jinthbao {name}, PWG Raster to ESC/P2"
*PSVersion: "(3010.000) 0"
*LanguageLevel: "3"
*ColorDevice: {colour}
*DefaultColorSpace: {"RGB" if colour else "Gray"}
*FileSystem: False
*Throughput: "1"
*LandscapeOrientation: Plus90
*TTRasterizer: Type42
*cupsVersion: 2.4
*cupsLanguages: "en"
*1284DeviceID: "MFG:Jinthbao;MDL:{name};CLS:PRINTER;CMD:ESCPL2;"
*cupsIPPReason jinthbao-profile-error/The profile in the queue's PPD is missing or refused: ""'''


def ppd_filters():
    """The costs steer CUPS: a PDF goes by CUPS Raster, for 0 is below 10, and a PWG file comes as it is, for 10 is
    below 197, the cost of the way by a PDF. The filters before this one make the copies. There are no commands, as for
    the cleaning of heads, and where one comes the filter says so."""
    return '''*cupsFilter2: "application/vnd.cups-raster application/vnd.cups-raw 0 rastertojinthbao"
*cupsFilter2: "image/pwg-raster application/vnd.cups-raw 10 rastertojinthbao"
*cupsFilter2: "application/vnd.cups-command application/vnd.cups-raw 0 rastertojinthbao"
*cupsCommands: "none"
*cupsManualCopies: True'''


def ppd_profile(profile):
    return f'*jinthbaoProfile: "\n{profile.text.strip()}\n"\n*End'


def ppd_option(key, text, choices, order):
    """An option whose first choice is the default; a choice is its name, its text and its PostScript."""
    lines = [
        f"*OpenUI *{key}/{text}: PickOne", f"*OrderDependency: {order} AnySetup *{key}",
        f"*Default{key}: {choices[0][0]}"]
    lines += [f'*{key} {name}/{shown}: "{code}"' for name, shown, code in choices]
    return "\n".join(lines + [f"*CloseUI: *{key}"])


def ppd_sheets(profile, sheets):
    choices = [
        (sheet.name, sheet.text,
         f"<</PageSize[{points(sheet.width)} {points(sheet.height)}]/ImagingBBox null>>setpagedevice")
        for sheet in sheets]
    lines = [ppd_option("PageSize", "Media Size", choices, 10), ppd_option("PageRegion", "Media Size", choices, 10)]
    lines += [f"*DefaultImageableArea: {sheets[0].name}", f"*DefaultPaperDimension: {sheets[0].name}"]
    for sheet in sheets:
        width, height = points(sheet.width), points(sheet.height)
        left, bottom = profile.left * 72, profile.bottom * 72
        right, top = width - profile.right * 72, height - profile.top * 72
        lines.append(f'*ImageableArea {sheet.name}/{sheet.text}: "{left:g} {bottom:g} {right:g} {top:g}"')
        lines.append(f'*PaperDimension {sheet.name}/{sheet.text}: "{width} {height}"')
    return "\n".join(lines)


def bounds_of_custom_sheet(profile):
    """The width and height in points of the smallest, and of the largest sheet."""
    margins = (72 * (profile.left + profile.right), 72 * (profile.top + profile.bottom))
    return [math.ceil(both) + SHORTEST for both in margins], (MOST_COLUMNS * 72 // profile.across, MOST_INCHES * 72)


def ppd_custom_sheet(profile):
    left, bottom, right, top = (72 * margin for margin in (profile.left, profile.bottom, profile.right, profile.top))
    (narrowest, shortest), (widest, longest) = bounds_of_custom_sheet(profile)
    return f'''*MaxMediaWidth: "{widest}"
*MaxMediaHeight: "{longest}"
*HWMargins: {left:g} {bottom:g} {right:g} {top:g}
*CustomPageSize True: "pop pop pop <</PageSize[5 -2 roll]/ImagingBBox null>>setpagedevice"
*ParamCustomPageSize Width: 1 points {narrowest} {widest}
*ParamCustomPageSize Height: 2 points {shortest} {longest}
*ParamCustomPageSize WidthOffset: 3 points 0 0
*ParamCustomPageSize HeightOffset: 4 points 0 0
*ParamCustomPageSize Orientation: 5 int 0 0'''


def ppd_media(sheets):
    """CUPS tells clients of media types and sources only if the PPD has them, and IPP Everywhere asks for both."""
    return "\n".join(ppd_option(key, text, [(*choice[:2], "")], 10) for key, text, choice in (
        ("MediaType", "Media Type", media_of(sheets)), ("InputSlot", "Media Source", SOURCE)))


def media_of(sheets):
    return MEDIA["labels" if sheets[0].ipp_name.startswith("om_label") else "paper"]


def ppd_choices(profile):
    resolution = resolution_of(profile)
    models = [
        (model, PIXELS[model].text,
         f"<</cupsColorSpace {PIXELS[model].space}/cupsColorOrder 0/cupsBitsPerColor {PIXELS[model].bits}>>"
         "setpagedevice")
        for model in profile.models]
    return "\n".join([
        ppd_option("Resolution", "Resolution", [(resolution, resolution.replace("dpi", " DPI"),
                   f"<</HWResolution[{profile.across} {profile.down}]>>setpagedevice")], 10),
        ppd_option("ColorModel", "Color Mode", models, 10),
        ppd_option("cupsPrintQuality", "Print Quality", [(each.name, each.text, "") for each in QUALITIES], 20),
        ppd_option("Kernel", "Error Diffusion", [(name, text, "") for name, text in KERNELS], 20),
        ppd_option("Grain", "Even Colors", [(name, text, "") for name, text in GRAINS], 20),
        *ppd_black_start(profile),
        ppd_option("Workers", "Threads", [(str(count), str(count), "") for count in WORKERS], 20),
        ppd_custom_option("Cap", "Most Dots of a Job", "No Limit", "Dots", 20),
        ppd_passes(profile)])


def ppd_black_start(profile):
    """The tone from which black ink is used, where colours have black ink beside them."""
    if len(profile.inks) < 4:
        return []
    return [ppd_option("Black_Start", "Black Ink", [(name, text, "") for name, text in BLACK_STARTS], 20)]


def ppd_passes(profile):
    """Shingled passes, where the head can do them, and dead nozzles; the driver does not do both."""
    dead = ppd_custom_option("Dead", "Dead Nozzles", "None", "Nozzles", 255)
    if not profile.shingles:
        return dead
    shingle = ppd_option("Shingle", "Shingled Passes", [("0", "Off", ""), ("1", "On", "")], 20)
    return "\n".join([shingle, dead, "*UIConstraints: *Shingle 1 *Dead", "*UIConstraints: *Dead *Shingle 1"])


def ppd_custom_option(key, text, none, parameter, most):
    """An option that is off, or a text of at most so many characters, as Cap=Custom.5000."""
    return "\n".join([
        ppd_option(key, text, [("None", none, "")], 20), f'*Custom{key} True: ""',
        f"*ParamCustom{key} {parameter}/{parameter}: 1 string 1 {most}"])


def resolution_of(profile):
    return f"{profile.across}dpi" if profile.across == profile.down else f"{profile.across}x{profile.down}dpi"


def attributes(profile, name, sheets):
    """The attributes; lengths are in hundredths of a millimetre, and margins are rounded up."""
    return "\n".join([*ipp_printer(profile, name), *ipp_raster(profile), *ipp_media(profile, sheets), ipp_presets(),
                      *(f"ATTR {line}" for line in IPP_CONSTANT), ""])


def ipp_presets():
    """The qualities by what they are, as Draft-by-Floyd-and-Steinberg: CUPS makes lines of a PPD of such names."""
    names = ["-".join(re.findall("[A-Za-z]+", each.text)) for each in QUALITIES]
    presets = [f'{{ MEMBER name preset-name "{name}" MEMBER enum print-quality {each.number} }}'
               for name, each in zip(names, QUALITIES)]
    return "ATTR collection job-presets-supported " + ",".join(presets)


# In what all printers are alike: no finishing, one tray, front sides, and levels of ink that nobody knows.
IPP_CONSTANT = (
    "integer copies-default 1", "rangeOfInteger copies-supported 1-999",
    "keyword sides-default one-sided", "keyword sides-supported one-sided",
    "enum print-quality-default 4", "enum print-quality-supported 3,4,5",
    "enum orientation-requested-default 3", "enum orientation-requested-supported 3",
    "enum finishings-default 3", "enum finishings-supported 3", "enum finishings-ready 3",
    "collection finishings-col-default { MEMBER keyword finishing-template none }",
    "collection finishings-col-ready { MEMBER keyword finishing-template none }",
    "collection finishings-col-database { MEMBER keyword finishing-template none }",
    "keyword finishings-col-supported finishing-template",
    "keyword output-bin-default face-up", "keyword output-bin-supported face-up",
    "boolean page-ranges-supported false", "keyword print-content-optimize-default auto",
    "keyword print-content-optimize-supported auto", "keyword print-rendering-intent-default auto",
    "keyword print-rendering-intent-supported auto", f"keyword media-source-supported {SOURCE[2]}",
    'octetString printer-input-tray "type=sheetFeedManual;mediafeed=0;mediaxfeed=0;maxcapacity=-2;level=-2;status=0;'
    f'name={SOURCE[2]};"')


def ipp_printer(profile, name):
    colour = profile.models[0] == "RGB"
    mode = "color" if colour else "monochrome"
    inks = ", ".join(f'"index={place};class=supplyThatIsConsumed;type=ink;unit=percent;maxcapacity=100;level=-2;'
                     f'colorantname={ink};"' for place, ink in enumerate(profile.inks, 1))
    return [
        f'ATTR text printer-make-and-model "Jinthbao {name}"',
        f'ATTR text printer-device-id "MFG:Jinthbao;MDL:{name};CMD:PWGRaster;"',
        f"ATTR boolean color-supported {str(colour).lower()}",
        "ATTR integer pages-per-minute 1", *(["ATTR integer pages-per-minute-color 1"] if colour else []),
        f"ATTR keyword print-color-mode-default {mode}",
        f"ATTR keyword print-color-mode-supported {'color,monochrome' if colour else mode}",
        f"ATTR octetString printer-supply {inks}",
        "ATTR text printer-supply-description " + ", ".join(f'"{ink.capitalize()} Ink"' for ink in profile.inks)]


def ipp_raster(profile):
    resolution = resolution_of(profile)
    types = ",".join(PIXELS[model].ipp_name for model in profile.models)
    return [
        f"ATTR resolution printer-resolution-default {resolution}",
        f"ATTR resolution printer-resolution-supported {resolution}",
        f"ATTR resolution pwg-raster-document-resolution-supported {resolution}",
        "ATTR keyword pwg-raster-document-sheet-back normal",
        f"ATTR keyword pwg-raster-document-type-supported {types}"]


def ipp_media(profile, sheets):
    least, most = bounds_of_custom_sheet(profile)
    custom = [ipp_custom_name("min", least), ipp_custom_name("max", most)]
    names = ",".join([*(sheet.ipp_name for sheet in sheets), *custom])
    kind = media_of(sheets)[2]
    lines = [
        f"ATTR keyword media-default {sheets[0].ipp_name}", f"ATTR keyword media-supported {names}",
        f"ATTR keyword media-ready {sheets[0].ipp_name}", f"ATTR keyword media-type-supported {kind}"]
    lines += [f"ATTR integer media-{side}-margin-supported {margin}" for side, margin in ipp_margins(profile)]
    sizes = [ipp_size(sheet) for sheet in sheets] + [ipp_custom_size(least, most)]
    lines.append("ATTR collection media-size-supported " + ",".join(sizes))
    columns = [ipp_column(profile, sheet, kind) for sheet in sheets]
    lines += [f"ATTR collection media-col-{key} {columns[0]}" for key in ("default", "ready")]
    return lines + ["ATTR collection media-col-database " + ",".join(columns)]


def ipp_column(profile, sheet, kind):
    """The members of a sheet's media-col."""
    members = [f"MEMBER collection media-size {ipp_size(sheet)}", f"MEMBER keyword media-size-name {sheet.ipp_name}",
               f"MEMBER keyword media-source {SOURCE[2]}", f"MEMBER keyword media-type {kind}"]
    members += [f"MEMBER integer media-{side}-margin {margin}" for side, margin in ipp_margins(profile)]
    return "{ " + " ".join(members) + " }"


def ipp_margins(profile):
    return [(side, math.ceil(getattr(profile, side) * 2540)) for side in ("bottom", "left", "right", "top")]


def ipp_custom_name(word, inches):
    width, height = (f"{millimetres(side):g}" for side in inches)
    return f"custom_{word}_{width}x{height}mm"


def ipp_custom_size(least, most):
    (x, y), (last_x, last_y) = ([round(millimetres(side) * 100) for side in inches] for inches in (least, most))
    return f"{{ MEMBER rangeOfInteger x-dimension {x}-{last_x} MEMBER rangeOfInteger y-dimension {y}-{last_y} }}"


def ipp_size(sheet):
    x, y = round(sheet.width * 100), round(sheet.height * 100)
    return f"{{ MEMBER integer x-dimension {x} MEMBER integer y-dimension {y} }}"


def fault_of(name):
    """Why a name cannot stand in a PPD, in words, or None."""
    if not name:
        return "it is empty"
    if len(name) > LONGEST_NAME:
        return f"it has {len(name)} characters, and a PPD takes {LONGEST_NAME}"
    if not name.isascii():
        return "it has characters that are not ASCII"
    wrong = re.search("[^A-Za-z0-9 _.+-]", name)
    if wrong:
        return f"it has the character {wrong[0]!r}, and a PPD takes letters, digits, blanks and _ . + -"
    return None


def main(words):
    descriptions = {"ppd": ppd, "attributes": attributes}
    if len(words) not in (2, 3) or words[0] not in descriptions or words[2:] not in ([], ["paper"], ["labels"]):
        sys.exit(__doc__)
    fault = fault_of(words[1])
    if fault:
        sys.exit(f"describe.py: {words[1]!r} cannot be the name of a printer: {fault}")
    text = sys.stdin.read()
    if not text.startswith(HEADS):
        sys.exit("describe.py: standard input is not the text of a profile")
    profile = Profile(text)
    sheets = [sheet for sheet in SHEETS[(words[2:] or ["paper"])[0]] if profile.takes(sheet)]
    sys.stdout.write(descriptions[words[0]](profile, words[1], sheets))


if __name__ == "__main__":
    main(sys.argv[1:])
