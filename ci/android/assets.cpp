// What Android's own library (libandroidfw of Android 10, by Debian's package android-libandroidfw-dev) says of tables of
// resources. Its arguments are apps; the questions are lines of standard input, and each has one line of answer:
//   c CONFIGURATION LOCALE   a device: 64 bytes in hexadecimal, a tag of BCP 47 or -
//   v ID                     the value that the device takes: number of the app, type, word, configuration, text
//   b ID                     the bag with its parents: of each item its key, type, word, style
//   t ID ..                  a theme of these styles
//   a ID                     the attribute in the theme, through attributes and references: type, word
//   n ID                     the name
//   m ONE OTHER              whether ONE matches, is better than OTHER for the device, is more specific than OTHER
//   q TEXT                   the configuration of qualifiers
//   w CONFIGURATION          its qualifiers
// and - where there is nothing.
#include <androidfw/ApkAssets.h>
#include <androidfw/AssetManager2.h>
#include <androidfw/ConfigDescription.h>
#include <androidfw/ResourceTypes.h>

#include <cstdio>
#include <cstring>
#include <iostream>
#include <memory>
#include <sstream>
#include <string>
#include <vector>

using namespace android;

static std::string hex(const void* at, size_t size) {
  static const char digits[] = "0123456789abcdef";
  std::string out;
  for (size_t i = 0; i < size; i++) {
    const uint8_t byte = static_cast<const uint8_t*>(at)[i];
    out += digits[byte >> 4];
    out += digits[byte & 15];
  }
  return out;
}

static ResTable_config configuration(const std::string& text) {
  ResTable_config out;
  memset(&out, 0, sizeof out);
  for (size_t i = 0; i < sizeof out && 2 * i + 1 < text.size(); i++)
    reinterpret_cast<uint8_t*>(&out)[i] = static_cast<uint8_t>(std::stoul(text.substr(2 * i, 2), nullptr, 16));
  out.size = sizeof out;
  return out;
}

static std::string string_of(const AssetManager2& assets, ApkAssetsCookie cookie, const Res_value& value) {
  if (value.dataType != Res_value::TYPE_STRING) return "-";
  const ResStringPool* pool = assets.GetStringPoolForCookie(cookie);
  size_t size = 0;
  const char16_t* wide = pool->stringAt(value.data, &size);
  if (wide == nullptr) {
    const char* narrow = pool->string8At(value.data, &size);
    return narrow == nullptr ? "?" : "8" + hex(narrow, size);
  }
  return "6" + hex(wide, 2 * size);
}

static void say_value(AssetManager2& assets, uint32_t id) {
  Res_value value;
  ResTable_config chosen;
  uint32_t flags;
  const ApkAssetsCookie cookie = assets.GetResource(id, true, 0, &value, &chosen, &flags);
  if (cookie == kInvalidCookie) {
    puts("-");
    return;
  }
  printf("%d %02x %08x %s %s\n", cookie, value.dataType, value.data, hex(&chosen, sizeof chosen).c_str(),
         string_of(assets, cookie, value).c_str());
}

static void say_bag(AssetManager2& assets, uint32_t id) {
  const ResolvedBag* bag = assets.GetBag(id);
  if (bag == nullptr) {
    puts("-");
    return;
  }
  for (const ResolvedBag::Entry* it = begin(bag); it != end(bag); ++it)
    printf("%08x:%02x:%08x:%08x ", it->key, it->value.dataType, it->value.data, it->style);
  puts(".");
}

static void say_attribute(Theme& theme, uint32_t id) {
  Res_value value;
  uint32_t flags = 0, last = 0;
  ResTable_config chosen;
  ApkAssetsCookie cookie = theme.GetAttribute(id, &value, &flags);
  if (cookie != kInvalidCookie)
    cookie = theme.ResolveAttributeReference(cookie, &value, &chosen, &flags, &last);
  if (cookie == kInvalidCookie)
    puts("-");
  else
    printf("%02x %08x\n", value.dataType, value.data);
}

static void say_comparison(const ResTable_config& one, const ResTable_config& other, const ResTable_config& device) {
  printf("%d %d %d\n", one.match(device), one.isBetterThan(other, &device), one.isMoreSpecificThan(other));
}

static void say_configuration(const std::string& text) {
  ConfigDescription out;
  if (!ConfigDescription::Parse(text, &out)) {
    puts("-");
    return;
  }
  out.size = sizeof(ResTable_config);
  puts(hex(static_cast<ResTable_config*>(&out), sizeof(ResTable_config)).c_str());
}

static void say_name(AssetManager2& assets, uint32_t id) {
  AssetManager2::ResourceName name;
  if (!assets.GetResourceName(id, &name)) {
    puts("-");
    return;
  }
  const std::string type = name.type ? std::string(name.type, name.type_len)
                                     : String8(name.type16, name.type_len).string();
  const std::string entry = name.entry ? std::string(name.entry, name.entry_len)
                                       : String8(name.entry16, name.entry_len).string();
  printf("%s:%s/%s\n", std::string(name.package, name.package_len).c_str(), type.c_str(), entry.c_str());
}

int main(int count, char** words) {
  std::vector<std::unique_ptr<const ApkAssets>> apps;
  std::vector<const ApkAssets*> plain;
  for (int i = 1; i < count; i++) {
    apps.push_back(ApkAssets::Load(words[i]));
    if (!apps.back()) {
      fprintf(stderr, "%s cannot be loaded\n", words[i]);
      return 2;
    }
    plain.push_back(apps.back().get());
  }
  AssetManager2 assets;
  assets.SetApkAssets(plain);
  std::unique_ptr<Theme> theme = assets.NewTheme();
  ResTable_config device;
  memset(&device, 0, sizeof device);
  std::string line;
  while (std::getline(std::cin, line)) {
    std::istringstream in(line);
    std::string what, first, second;
    in >> what;
    if (what == "t") {
      theme = assets.NewTheme();
      bool right = true;
      while (in >> first) right = theme->ApplyStyle(std::stoul(first, nullptr, 16), true) && right;
      puts(right ? "." : "-");
      continue;
    }
    in >> first >> second;
    const uint32_t id = strchr("vban", what[0]) ? std::stoul(first, nullptr, 16) : 0;
    if (what == "c") {
      device = configuration(first);
      if (second != "-") device.setBcp47Locale(second.c_str());
      assets.SetConfiguration(device);
      theme = assets.NewTheme();
      puts(".");
    } else if (what == "v") {
      say_value(assets, id);
    } else if (what == "b") {
      say_bag(assets, id);
    } else if (what == "a") {
      say_attribute(*theme, id);
    } else if (what == "n") {
      say_name(assets, id);
    } else if (what == "m") {
      say_comparison(configuration(first), configuration(second), device);
    } else if (what == "q") {
      say_configuration(first);
    } else if (what == "w") {
      printf("%s.\n", configuration(first).toString().string());
    }
  }
  return 0;
}
