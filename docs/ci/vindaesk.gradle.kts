// Stored scripts of the folder screens as a part of `gradle check`; `gradle acceptScreens` writes today's answers.
val runall = providers.gradleProperty("vindaesk.runall").orElse("vindaesk-runall")

tasks.register<Exec>("checkScreens") {
    group = "verification"
    description = "Compares the stored scripts of screens/ with their answers and pictures"
    commandLine(runall.get(), "screens", "--report", "build/screens", "--junit", "build/screens.xml")
}

tasks.register<Exec>("acceptScreens") {
    group = "verification"
    description = "Writes the answers and pictures of today"
    commandLine(runall.get(), "screens", "--accept")
}

tasks.named("check") { dependsOn("checkScreens") }
